// Refusal 8: slice's constraint C3 wants 0 <= start <= limit <= size; A is the op, B the number.
func.func @main() -> tensor<0xi32> {
  %a = "stablehlo.iota"() {iota_dimension = 0 : i64} : () -> tensor<5xi32>
  %b = "stablehlo.slice"(%a) {
    start_indices = array<i64: 3>,
    limit_indices = array<i64: 2>,
    strides = array<i64: 1>
  } : (tensor<5xi32>) -> tensor<0xi32>
  "func.return"(%b) : (tensor<0xi32>) -> ()
}

// Refusal 12: element 2 of op 2 has the divisor 0, although its result is not used.
func.func @main() -> tensor<4xi8> {
  %a = "stablehlo.constant"() {value = dense<[9, 8, 7, 6]> : tensor<4xi8>} : () -> tensor<4xi8>
  %b = "stablehlo.constant"() {value = dense<[1, 2, 0, 0]> : tensor<4xi8>} : () -> tensor<4xi8>
  %q = "stablehlo.divide"(%a, %b) : (tensor<4xi8>, tensor<4xi8>) -> tensor<4xi8>
  "func.return"(%a) : (tensor<4xi8>) -> ()
}

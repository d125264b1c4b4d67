// Refusal 6: %a is defined a second time by op 1; A is the second name's first byte.
func.func @main() -> tensor<i8> {
  %a = "stablehlo.constant"() {value = dense<1> : tensor<i8>} : () -> tensor<i8>
  %a = "stablehlo.negate"(%a) : (tensor<i8>) -> tensor<i8>
  "func.return"(%a) : (tensor<i8>) -> ()
}

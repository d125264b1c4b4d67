// Refusal 5: %b is used before any definition; A is the name's first byte.
func.func @main() -> tensor<i8> {
  %a = "stablehlo.constant"() {value = dense<1> : tensor<i8>} : () -> tensor<i8>
  %c = "stablehlo.add"(%a, %b) : (tensor<i8>, tensor<i8>) -> tensor<i8>
  "func.return"(%c) : (tensor<i8>) -> ()
}

// Refusal 2: the grammar fails at the closing brace, since "func.return" must come last.
func.func @main() -> tensor<i8> {
  %a = "stablehlo.constant"() {value = dense<1> : tensor<i8>} : () -> tensor<i8>
}

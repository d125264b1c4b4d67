// Refusal 7: abs takes signed types only; A is the number of the op, counted from 0.
func.func @main() -> tensor<ui8> {
  %a = "stablehlo.constant"() {value = dense<1> : tensor<ui8>} : () -> tensor<ui8>
  %b = "stablehlo.abs"(%a) : (tensor<ui8>) -> tensor<ui8>
  "func.return"(%b) : (tensor<ui8>) -> ()
}

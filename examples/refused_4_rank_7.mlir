// Refusal 4: rank 7 passes size 1 (rank at most 6) at the header's type; B is the size's number.
func.func @main() -> tensor<1x1x1x1x1x1x1xi8> {
  %a = "stablehlo.constant"() {value = dense<1> : tensor<1x1x1x1x1x1x1xi8>} : () -> tensor<1x1x1x1x1x1x1xi8>
  "func.return"(%a) : (tensor<1x1x1x1x1x1x1xi8>) -> ()
}

// Refusal 10: the evaluating program feeds no inputs; A is the number of slots that are needed.
func.func @main(%a: tensor<2x3xi8>, %b: tensor<4xi8>) -> tensor<4xi8> {
  "func.return"(%b) : (tensor<4xi8>) -> ()
}

// Refusal 5 at the limit of 8,192 elements: the add writes no result type, so it adds none to them,
// and %z is not defined. Reading passes the text, and names come before the typing of any op.
func.func @main(%a: tensor<4096xi8>, %b: tensor<4096xi8>) {
  "stablehlo.add"(%z) : (tensor<i8>) -> ()
  "func.return"() : () -> ()
}

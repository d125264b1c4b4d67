// Refusal 3: f32 is a type of the standard that this bench leaves out; A is the type's first byte.
func.func @main() -> tensor<f32> {
  %a = "stablehlo.constant"() {value = dense<1> : tensor<f32>} : () -> tensor<f32>
  "func.return"(%a) : (tensor<f32>) -> ()
}

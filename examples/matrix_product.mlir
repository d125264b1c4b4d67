// The product of a 2x3 and a 3x2 matrix from simpler ops: both are spread to 2x2x3 with the sum's
// dimension last, multiplied element by element and summed over that dimension.
func.func @main() -> tensor<2x2xi64> {
  %a = "stablehlo.constant"() {value = dense<[[1, 2, 3], [4, 5, 6]]> : tensor<2x3xi64>} : () -> tensor<2x3xi64>
  %b = "stablehlo.constant"() {value = dense<[[7, 8], [9, 10], [11, 12]]> : tensor<3x2xi64>} : () -> tensor<3x2xi64>
  %zero = "stablehlo.constant"() {value = dense<0> : tensor<i64>} : () -> tensor<i64>
  %rows = "stablehlo.broadcast_in_dim"(%a) {broadcast_dimensions = array<i64: 0, 2>} : (tensor<2x3xi64>) -> tensor<2x2x3xi64>
  %columns = "stablehlo.broadcast_in_dim"(%b) {broadcast_dimensions = array<i64: 2, 1>} : (tensor<3x2xi64>) -> tensor<2x2x3xi64>
  %products = "stablehlo.multiply"(%rows, %columns) : (tensor<2x2x3xi64>, tensor<2x2x3xi64>) -> tensor<2x2x3xi64>
  %result = "stablehlo.reduce"(%products, %zero) ({
    ^bb0(%x: tensor<i64>, %y: tensor<i64>):
      %sum = "stablehlo.add"(%x, %y) : (tensor<i64>, tensor<i64>) -> tensor<i64>
      "stablehlo.return"(%sum) : (tensor<i64>) -> ()
  }) {dimensions = array<i64: 2>} : (tensor<2x2x3xi64>, tensor<i64>) -> tensor<2x2xi64>
  "func.return"(%result) : (tensor<2x2xi64>) -> ()
}

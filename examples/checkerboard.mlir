// A checkerboard: a square is marked where row plus column is odd. The number of marked squares is
// a sum over both dimensions.
func.func @main() -> tensor<3x4xi1>, tensor<ui8> {
  %row = "stablehlo.iota"() {iota_dimension = 0 : i64} : () -> tensor<3x4xui8>
  %column = "stablehlo.iota"() {iota_dimension = 1 : i64} : () -> tensor<3x4xui8>
  %one = "stablehlo.constant"() {value = dense<1> : tensor<3x4xui8>} : () -> tensor<3x4xui8>
  %zero = "stablehlo.constant"() {value = dense<0> : tensor<ui8>} : () -> tensor<ui8>
  %sum = "stablehlo.add"(%row, %column) : (tensor<3x4xui8>, tensor<3x4xui8>) -> tensor<3x4xui8>
  %odd = "stablehlo.and"(%sum, %one) : (tensor<3x4xui8>, tensor<3x4xui8>) -> tensor<3x4xui8>
  %marked = "stablehlo.convert"(%odd) : (tensor<3x4xui8>) -> tensor<3x4xi1>
  %count = "stablehlo.reduce"(%odd, %zero) ({
    ^bb0(%x: tensor<ui8>, %y: tensor<ui8>):
      %both = "stablehlo.add"(%x, %y) : (tensor<ui8>, tensor<ui8>) -> tensor<ui8>
      "stablehlo.return"(%both) : (tensor<ui8>) -> ()
  }) {dimensions = array<i64: 0, 1>} : (tensor<3x4xui8>, tensor<ui8>) -> tensor<ui8>
  "func.return"(%marked, %count) : (tensor<3x4xi1>, tensor<ui8>) -> ()
}

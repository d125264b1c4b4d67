// The same elements in other shapes. iota counts along one dimension; elements are listed with the
// last dimension fastest; transpose takes result_index[d] from operand_index[permutation[d]].
func.func @main() -> tensor<2x3xi8>, tensor<3x2xi8>, tensor<3x2xi8>, tensor<2x3xi8>, tensor<2x2x3xi8> {
  %row = "stablehlo.iota"() {iota_dimension = 0 : i64} : () -> tensor<6xi8>
  %table = "stablehlo.reshape"(%row) : (tensor<6xi8>) -> tensor<2x3xi8>
  %thin = "stablehlo.reshape"(%table) : (tensor<2x3xi8>) -> tensor<3x2xi8>
  %turned = "stablehlo.transpose"(%table) {permutation = array<i64: 1, 0>} : (tensor<2x3xi8>) -> tensor<3x2xi8>
  %back = "stablehlo.reverse"(%table) {dimensions = array<i64: 1>} : (tensor<2x3xi8>) -> tensor<2x3xi8>
  %first = "stablehlo.slice"(%table) {
    start_indices = array<i64: 0, 0>,
    limit_indices = array<i64: 1, 3>,
    strides = array<i64: 1, 1>
  } : (tensor<2x3xi8>) -> tensor<1x3xi8>
  // Dimension 0 of the operand has size 1 and is repeated along dimension 1; dimension 0 is new.
  %spread = "stablehlo.broadcast_in_dim"(%first) {broadcast_dimensions = array<i64: 1, 2>} : (tensor<1x3xi8>) -> tensor<2x2x3xi8>
  "func.return"(%table, %thin, %turned, %back, %spread) : (tensor<2x3xi8>, tensor<3x2xi8>, tensor<3x2xi8>, tensor<2x3xi8>, tensor<2x2x3xi8>) -> ()
}

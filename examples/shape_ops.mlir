// Ops that work shape by shape on the examples of 01's table and of 000, operands as constants.
// The second evaluator writes the result of every op: `evaluator ops < examples/shape_ops.mlir`.
func.func @main() {
  // iota: 000, along 0 and along 1
  %r108 = "stablehlo.iota"() {iota_dimension = 0 : i64} : () -> tensor<4x5xi32>
  %r109 = "stablehlo.iota"() {iota_dimension = 1 : i64} : () -> tensor<4x5xi32>
  // reshape: 000
  %c110 = "stablehlo.constant"() {value = dense<[[1, 2, 3], [4, 5, 6]]> : tensor<2x3xi32>} : () -> tensor<2x3xi32>
  %r111 = "stablehlo.reshape"(%c110) : (tensor<2x3xi32>) -> tensor<3x2xi32>
  // transpose: 000; 01, "Transposing by the inverse permutation": a permutation that is not its own inverse
  %c112 = "stablehlo.constant"() {value = dense<[[[1, 2], [3, 4], [5, 6]], [[7, 8], [9, 10], [11, 12]]]> : tensor<2x3x2xi32>} : () -> tensor<2x3x2xi32>
  %r113 = "stablehlo.transpose"(%c112) {permutation = array<i64: 2, 1, 0>} : (tensor<2x3x2xi32>) -> tensor<2x3x2xi32>
  %c114 = "stablehlo.constant"() {value = dense<[[[1, 2], [3, 4], [5, 6]], [[7, 8], [9, 10], [11, 12]]]> : tensor<2x3x2xi32>} : () -> tensor<2x3x2xi32>
  %r115 = "stablehlo.transpose"(%c114) {permutation = array<i64: 1, 2, 0>} : (tensor<2x3x2xi32>) -> tensor<3x2x2xi32>
  // reverse: 000
  %c116 = "stablehlo.constant"() {value = dense<[[1, 2], [3, 4], [5, 6]]> : tensor<3x2xi32>} : () -> tensor<3x2xi32>
  %r117 = "stablehlo.reverse"(%c116) {dimensions = array<i64: 1>} : (tensor<3x2xi32>) -> tensor<3x2xi32>
  // broadcast_in_dim: 000
  %c118 = "stablehlo.constant"() {value = dense<[[1, 2, 3]]> : tensor<1x3xi32>} : () -> tensor<1x3xi32>
  %r119 = "stablehlo.broadcast_in_dim"(%c118) {broadcast_dimensions = array<i64: 2, 1>} : (tensor<1x3xi32>) -> tensor<2x3x2xi32>
  // slice: 01, start 1, limit 5, stride 2; 000
  %s0 = "stablehlo.constant"() {value = dense<[0, 1, 2, 3, 4]> : tensor<5xi32>} : () -> tensor<5xi32>
  %s1 = "stablehlo.slice"(%s0) {start_indices = array<i64: 1>, limit_indices = array<i64: 5>, strides = array<i64: 2>} : (tensor<5xi32>) -> tensor<2xi32>
  %s2 = "stablehlo.constant"() {value = dense<[[0, 0, 0, 0], [0, 0, 1, 1], [0, 0, 1, 1]]> : tensor<3x4xi64>} : () -> tensor<3x4xi64>
  %s3 = "stablehlo.slice"(%s2) {start_indices = array<i64: 1, 2>, limit_indices = array<i64: 3, 4>, strides = array<i64: 1, 1>} : (tensor<3x4xi64>) -> tensor<2x2xi64>
  // pad: 01, low -1, interior 1, high 2; 000
  %p0 = "stablehlo.constant"() {value = dense<0> : tensor<i32>} : () -> tensor<i32>
  %p1 = "stablehlo.constant"() {value = dense<[1, 2, 3]> : tensor<3xi32>} : () -> tensor<3xi32>
  %p2 = "stablehlo.pad"(%p1, %p0) {edge_padding_low = array<i64: -1>, edge_padding_high = array<i64: 2>, interior_padding = array<i64: 1>} : (tensor<3xi32>, tensor<i32>) -> tensor<6xi32>
  %p3 = "stablehlo.constant"() {value = dense<[[1, 2, 3], [4, 5, 6]]> : tensor<2x3xi32>} : () -> tensor<2x3xi32>
  %p4 = "stablehlo.pad"(%p3, %p0) {edge_padding_low = array<i64: 0, 1>, edge_padding_high = array<i64: 2, 1>, interior_padding = array<i64: 1, 2>} : (tensor<2x3xi32>, tensor<i32>) -> tensor<5x9xi32>
  // dynamic_slice: 01, ui8 255 and i8 -1; 000, starts -1 and 3
  %d0 = "stablehlo.constant"() {value = dense<[1650, 1675, 1700, 1725]> : tensor<4xui16>} : () -> tensor<4xui16>
  %d1 = "stablehlo.constant"() {value = dense<255> : tensor<ui8>} : () -> tensor<ui8>
  %d2 = "stablehlo.dynamic_slice"(%d0, %d1) {slice_sizes = array<i64: 1>} : (tensor<4xui16>, tensor<ui8>) -> tensor<1xui16>
  %d3 = "stablehlo.constant"() {value = dense<-1> : tensor<i8>} : () -> tensor<i8>
  %d4 = "stablehlo.dynamic_slice"(%d0, %d3) {slice_sizes = array<i64: 1>} : (tensor<4xui16>, tensor<i8>) -> tensor<1xui16>
  %d5 = "stablehlo.constant"() {value = dense<[[0, 0, 1, 1], [0, 0, 1, 1], [0, 0, 0, 0], [0, 0, 0, 0]]> : tensor<4x4xi32>} : () -> tensor<4x4xi32>
  %d6 = "stablehlo.constant"() {value = dense<-1> : tensor<i64>} : () -> tensor<i64>
  %d7 = "stablehlo.constant"() {value = dense<3> : tensor<i64>} : () -> tensor<i64>
  %d8 = "stablehlo.dynamic_slice"(%d5, %d6, %d7) {slice_sizes = array<i64: 2, 2>} : (tensor<4x4xi32>, tensor<i64>, tensor<i64>) -> tensor<2x2xi32>
  // concatenate: 000
  %k0 = "stablehlo.constant"() {value = dense<[[1, 2], [3, 4], [5, 6]]> : tensor<3x2xi64>} : () -> tensor<3x2xi64>
  %k1 = "stablehlo.constant"() {value = dense<[[7, 8]]> : tensor<1x2xi64>} : () -> tensor<1x2xi64>
  %k2 = "stablehlo.concatenate"(%k0, %k1) {dimension = 0 : i64} : (tensor<3x2xi64>, tensor<1x2xi64>) -> tensor<4x2xi64>
  // reduce: 000; 01: add over dimension 1, start 0
  %c120 = "stablehlo.constant"() {value = dense<[[0, 1, 2, 3, 4, 5]]> : tensor<1x6xi64>} : () -> tensor<1x6xi64>
  %c121 = "stablehlo.constant"() {value = dense<0> : tensor<i64>} : () -> tensor<i64>
  %r122 = "stablehlo.reduce"(%c120, %c121) ({
    ^bb0(%x: tensor<i64>, %y: tensor<i64>):
      %both = "stablehlo.add"(%x, %y) : (tensor<i64>, tensor<i64>) -> tensor<i64>
      "stablehlo.return"(%both) : (tensor<i64>) -> ()
  }) {dimensions = array<i64: 1>} : (tensor<1x6xi64>, tensor<i64>) -> tensor<1xi64>
  %c123 = "stablehlo.constant"() {value = dense<[[1, 2, 3], [4, 5, 6]]> : tensor<2x3xi32>} : () -> tensor<2x3xi32>
  %c124 = "stablehlo.constant"() {value = dense<0> : tensor<i32>} : () -> tensor<i32>
  %r125 = "stablehlo.reduce"(%c123, %c124) ({
    ^bb0(%x: tensor<i32>, %y: tensor<i32>):
      %both = "stablehlo.add"(%x, %y) : (tensor<i32>, tensor<i32>) -> tensor<i32>
      "stablehlo.return"(%both) : (tensor<i32>) -> ()
  }) {dimensions = array<i64: 1>} : (tensor<2x3xi32>, tensor<i32>) -> tensor<2xi32>
  // reduce with the other bodies, from their identities (01, "Identities")
  %c126 = "stablehlo.constant"() {value = dense<[[1, 2, 3], [4, 5, 6]]> : tensor<2x3xi32>} : () -> tensor<2x3xi32>
  %c127 = "stablehlo.constant"() {value = dense<1> : tensor<i32>} : () -> tensor<i32>
  %r128 = "stablehlo.reduce"(%c126, %c127) ({
    ^bb0(%x: tensor<i32>, %y: tensor<i32>):
      %both = "stablehlo.multiply"(%x, %y) : (tensor<i32>, tensor<i32>) -> tensor<i32>
      "stablehlo.return"(%both) : (tensor<i32>) -> ()
  }) {dimensions = array<i64: 0>} : (tensor<2x3xi32>, tensor<i32>) -> tensor<3xi32>
  %c129 = "stablehlo.constant"() {value = dense<[[1, 2, 3], [4, 5, 6]]> : tensor<2x3xi8>} : () -> tensor<2x3xi8>
  %c130 = "stablehlo.constant"() {value = dense<-128> : tensor<i8>} : () -> tensor<i8>
  %r131 = "stablehlo.reduce"(%c129, %c130) ({
    ^bb0(%x: tensor<i8>, %y: tensor<i8>):
      %both = "stablehlo.maximum"(%x, %y) : (tensor<i8>, tensor<i8>) -> tensor<i8>
      "stablehlo.return"(%both) : (tensor<i8>) -> ()
  }) {dimensions = array<i64: 1>} : (tensor<2x3xi8>, tensor<i8>) -> tensor<2xi8>
  %c132 = "stablehlo.constant"() {value = dense<[[1, 2, 3], [4, 5, 6]]> : tensor<2x3xi8>} : () -> tensor<2x3xi8>
  %c133 = "stablehlo.constant"() {value = dense<127> : tensor<i8>} : () -> tensor<i8>
  %r134 = "stablehlo.reduce"(%c132, %c133) ({
    ^bb0(%x: tensor<i8>, %y: tensor<i8>):
      %both = "stablehlo.minimum"(%x, %y) : (tensor<i8>, tensor<i8>) -> tensor<i8>
      "stablehlo.return"(%both) : (tensor<i8>) -> ()
  }) {dimensions = array<i64: 1>} : (tensor<2x3xi8>, tensor<i8>) -> tensor<2xi8>
  %c135 = "stablehlo.constant"() {value = dense<[[1, 2, 3], [4, 5, 6]]> : tensor<2x3xi32>} : () -> tensor<2x3xi32>
  %c136 = "stablehlo.constant"() {value = dense<-1> : tensor<i32>} : () -> tensor<i32>
  %r137 = "stablehlo.reduce"(%c135, %c136) ({
    ^bb0(%x: tensor<i32>, %y: tensor<i32>):
      %both = "stablehlo.and"(%x, %y) : (tensor<i32>, tensor<i32>) -> tensor<i32>
      "stablehlo.return"(%both) : (tensor<i32>) -> ()
  }) {dimensions = array<i64: 0, 1>} : (tensor<2x3xi32>, tensor<i32>) -> tensor<i32>
  %c138 = "stablehlo.constant"() {value = dense<[[1, 2, 3], [4, 5, 6]]> : tensor<2x3xi32>} : () -> tensor<2x3xi32>
  %c139 = "stablehlo.constant"() {value = dense<0> : tensor<i32>} : () -> tensor<i32>
  %r140 = "stablehlo.reduce"(%c138, %c139) ({
    ^bb0(%x: tensor<i32>, %y: tensor<i32>):
      %both = "stablehlo.or"(%x, %y) : (tensor<i32>, tensor<i32>) -> tensor<i32>
      "stablehlo.return"(%both) : (tensor<i32>) -> ()
  }) {dimensions = array<i64: 1>} : (tensor<2x3xi32>, tensor<i32>) -> tensor<2xi32>
  %c141 = "stablehlo.constant"() {value = dense<[[1, 2, 3], [4, 5, 6]]> : tensor<2x3xi32>} : () -> tensor<2x3xi32>
  %c142 = "stablehlo.constant"() {value = dense<0> : tensor<i32>} : () -> tensor<i32>
  %r143 = "stablehlo.reduce"(%c141, %c142) ({
    ^bb0(%x: tensor<i32>, %y: tensor<i32>):
      %both = "stablehlo.xor"(%x, %y) : (tensor<i32>, tensor<i32>) -> tensor<i32>
      "stablehlo.return"(%both) : (tensor<i32>) -> ()
  }) {dimensions = array<i64: 0>} : (tensor<2x3xi32>, tensor<i32>) -> tensor<3xi32>
  "func.return"() : () -> ()
}

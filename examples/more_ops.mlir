// constant, and what the texts of the other ops leave out: operands of rank 0 that serve every element, and tensors without elements.
// The second evaluator writes the result of every op, constants too: `evaluator ops all < examples/more_ops.mlir`.
func.func @main() {
  // constant: 000, as integers; 01's text: the table and the ui8 255
  %c0 = "stablehlo.constant"() {value = dense<[[0, 1], [2, 3]]> : tensor<2x2xi32>} : () -> tensor<2x2xi32>
  %c1 = "stablehlo.constant"() {value = dense<[1650, 1675, 1700, 1725]> : tensor<4xui16>} : () -> tensor<4xui16>
  %c2 = "stablehlo.constant"() {value = dense<255> : tensor<ui8>} : () -> tensor<ui8>
  // constant: booleans, negative numbers, one literal for every element, no elements
  %c3 = "stablehlo.constant"() {value = dense<[true, false]> : tensor<2xi1>} : () -> tensor<2xi1>
  %c4 = "stablehlo.constant"() {value = dense<[-128, -1, 127]> : tensor<3xi8>} : () -> tensor<3xi8>
  %c5 = "stablehlo.constant"() {value = dense<7> : tensor<2x3xi64>} : () -> tensor<2x3xi64>
  %c6 = "stablehlo.constant"() {value = dense<[]> : tensor<0x2xi32>} : () -> tensor<0x2xi32>
  // select: pred of rank 0, true and false, on the operands of 000
  %s0 = "stablehlo.constant"() {value = dense<true> : tensor<i1>} : () -> tensor<i1>
  %s1 = "stablehlo.constant"() {value = dense<[[1, 2], [3, 4]]> : tensor<2x2xi32>} : () -> tensor<2x2xi32>
  %s2 = "stablehlo.constant"() {value = dense<[[5, 6], [7, 8]]> : tensor<2x2xi32>} : () -> tensor<2x2xi32>
  %s3 = "stablehlo.select"(%s0, %s1, %s2) : (tensor<i1>, tensor<2x2xi32>, tensor<2x2xi32>) -> tensor<2x2xi32>
  %s4 = "stablehlo.constant"() {value = dense<false> : tensor<i1>} : () -> tensor<i1>
  %s5 = "stablehlo.constant"() {value = dense<[[1, 2], [3, 4]]> : tensor<2x2xi32>} : () -> tensor<2x2xi32>
  %s6 = "stablehlo.constant"() {value = dense<[[5, 6], [7, 8]]> : tensor<2x2xi32>} : () -> tensor<2x2xi32>
  %s7 = "stablehlo.select"(%s4, %s5, %s6) : (tensor<i1>, tensor<2x2xi32>, tensor<2x2xi32>) -> tensor<2x2xi32>
  // clamp: min and max of rank 0, min alone, max alone, on operands of 000
  %k0 = "stablehlo.constant"() {value = dense<5> : tensor<i32>} : () -> tensor<i32>
  %k1 = "stablehlo.constant"() {value = dense<[3, 13, 23]> : tensor<3xi32>} : () -> tensor<3xi32>
  %k2 = "stablehlo.constant"() {value = dense<20> : tensor<i32>} : () -> tensor<i32>
  %k3 = "stablehlo.clamp"(%k0, %k1, %k2) : (tensor<i32>, tensor<3xi32>, tensor<i32>) -> tensor<3xi32>
  %k4 = "stablehlo.constant"() {value = dense<5> : tensor<i32>} : () -> tensor<i32>
  %k5 = "stablehlo.constant"() {value = dense<[3, 13, 23]> : tensor<3xi32>} : () -> tensor<3xi32>
  %k6 = "stablehlo.constant"() {value = dense<[10, 11, 20]> : tensor<3xi32>} : () -> tensor<3xi32>
  %k7 = "stablehlo.clamp"(%k4, %k5, %k6) : (tensor<i32>, tensor<3xi32>, tensor<3xi32>) -> tensor<3xi32>
  %k8 = "stablehlo.constant"() {value = dense<[5, 10, 15]> : tensor<3xi32>} : () -> tensor<3xi32>
  %k9 = "stablehlo.constant"() {value = dense<[3, 13, 23]> : tensor<3xi32>} : () -> tensor<3xi32>
  %k10 = "stablehlo.constant"() {value = dense<12> : tensor<i32>} : () -> tensor<i32>
  %k11 = "stablehlo.clamp"(%k8, %k9, %k10) : (tensor<3xi32>, tensor<3xi32>, tensor<i32>) -> tensor<3xi32>
  // reduce over no elements: the start comes out (01, "Readings to rule out")
  %r0 = "stablehlo.constant"() {value = dense<[[], []]> : tensor<2x0xi32>} : () -> tensor<2x0xi32>
  %r1 = "stablehlo.constant"() {value = dense<5> : tensor<i32>} : () -> tensor<i32>
  %r2 = "stablehlo.reduce"(%r0, %r1) ({
    ^bb0(%x: tensor<i32>, %y: tensor<i32>):
      %both = "stablehlo.add"(%x, %y) : (tensor<i32>, tensor<i32>) -> tensor<i32>
      "stablehlo.return"(%both) : (tensor<i32>) -> ()
  }) {dimensions = array<i64: 1>} : (tensor<2x0xi32>, tensor<i32>) -> tensor<2xi32>
  %r3 = "stablehlo.constant"() {value = dense<[]> : tensor<0xi8>} : () -> tensor<0xi8>
  %r4 = "stablehlo.constant"() {value = dense<-128> : tensor<i8>} : () -> tensor<i8>
  %r5 = "stablehlo.reduce"(%r3, %r4) ({
    ^bb0(%x: tensor<i8>, %y: tensor<i8>):
      %both = "stablehlo.maximum"(%x, %y) : (tensor<i8>, tensor<i8>) -> tensor<i8>
      "stablehlo.return"(%both) : (tensor<i8>) -> ()
  }) {dimensions = array<i64: 0>} : (tensor<0xi8>, tensor<i8>) -> tensor<i8>
  // no elements: element by element, shape by shape, and a reduction whose result has none
  %n0 = "stablehlo.constant"() {value = dense<[[], []]> : tensor<2x0xi32>} : () -> tensor<2x0xi32>
  %n1 = "stablehlo.negate"(%n0) : (tensor<2x0xi32>) -> tensor<2x0xi32>
  %n2 = "stablehlo.transpose"(%n0) {permutation = array<i64: 1, 0>} : (tensor<2x0xi32>) -> tensor<0x2xi32>
  %n3 = "stablehlo.constant"() {value = dense<5> : tensor<i32>} : () -> tensor<i32>
  %n4 = "stablehlo.reduce"(%n0, %n3) ({
    ^bb0(%x: tensor<i32>, %y: tensor<i32>):
      %both = "stablehlo.add"(%x, %y) : (tensor<i32>, tensor<i32>) -> tensor<i32>
      "stablehlo.return"(%both) : (tensor<i32>) -> ()
  }) {dimensions = array<i64: 0>} : (tensor<2x0xi32>, tensor<i32>) -> tensor<0xi32>
  // pad of no elements: 0 + 1 + max(0 - 1, 0) x 3 + 1 of the padding value
  %p0 = "stablehlo.constant"() {value = dense<[]> : tensor<0xi32>} : () -> tensor<0xi32>
  %p1 = "stablehlo.constant"() {value = dense<9> : tensor<i32>} : () -> tensor<i32>
  %p2 = "stablehlo.pad"(%p0, %p1) {edge_padding_low = array<i64: 1>, edge_padding_high = array<i64: 1>, interior_padding = array<i64: 3>} : (tensor<0xi32>, tensor<i32>) -> tensor<2xi32>
  "func.return"() : () -> ()
}

// Ops on two operands, element by element, on the examples of 01's table and of 000, operands as constants.
// The second evaluator writes the result of every op: `evaluator ops < examples/binary_ops.mlir`.
func.func @main() {
  // add: 000; 01: i8 127 + 1, ui8 255 + 1, i1 true + true
  %c24 = "stablehlo.constant"() {value = dense<[[1, 2], [3, 4]]> : tensor<2x2xi32>} : () -> tensor<2x2xi32>
  %c25 = "stablehlo.constant"() {value = dense<[[5, 6], [7, 8]]> : tensor<2x2xi32>} : () -> tensor<2x2xi32>
  %r26 = "stablehlo.add"(%c24, %c25) : (tensor<2x2xi32>, tensor<2x2xi32>) -> tensor<2x2xi32>
  %c27 = "stablehlo.constant"() {value = dense<127> : tensor<i8>} : () -> tensor<i8>
  %c28 = "stablehlo.constant"() {value = dense<1> : tensor<i8>} : () -> tensor<i8>
  %r29 = "stablehlo.add"(%c27, %c28) : (tensor<i8>, tensor<i8>) -> tensor<i8>
  %c30 = "stablehlo.constant"() {value = dense<255> : tensor<ui8>} : () -> tensor<ui8>
  %c31 = "stablehlo.constant"() {value = dense<1> : tensor<ui8>} : () -> tensor<ui8>
  %r32 = "stablehlo.add"(%c30, %c31) : (tensor<ui8>, tensor<ui8>) -> tensor<ui8>
  %c33 = "stablehlo.constant"() {value = dense<true> : tensor<i1>} : () -> tensor<i1>
  %c34 = "stablehlo.constant"() {value = dense<true> : tensor<i1>} : () -> tensor<i1>
  %r35 = "stablehlo.add"(%c33, %c34) : (tensor<i1>, tensor<i1>) -> tensor<i1>
  // subtract: 000, as integers
  %c36 = "stablehlo.constant"() {value = dense<[[6, 8], [10, 12]]> : tensor<2x2xi32>} : () -> tensor<2x2xi32>
  %c37 = "stablehlo.constant"() {value = dense<[[5, 6], [7, 8]]> : tensor<2x2xi32>} : () -> tensor<2x2xi32>
  %r38 = "stablehlo.subtract"(%c36, %c37) : (tensor<2x2xi32>, tensor<2x2xi32>) -> tensor<2x2xi32>
  // multiply: 000
  %c39 = "stablehlo.constant"() {value = dense<[[1, 2], [3, 4]]> : tensor<2x2xi32>} : () -> tensor<2x2xi32>
  %c40 = "stablehlo.constant"() {value = dense<[[5, 6], [7, 8]]> : tensor<2x2xi32>} : () -> tensor<2x2xi32>
  %r41 = "stablehlo.multiply"(%c39, %c40) : (tensor<2x2xi32>, tensor<2x2xi32>) -> tensor<2x2xi32>
  // maximum: 000
  %c42 = "stablehlo.constant"() {value = dense<[[1, 2], [7, 8]]> : tensor<2x2xi32>} : () -> tensor<2x2xi32>
  %c43 = "stablehlo.constant"() {value = dense<[[5, 6], [3, 4]]> : tensor<2x2xi32>} : () -> tensor<2x2xi32>
  %r44 = "stablehlo.maximum"(%c42, %c43) : (tensor<2x2xi32>, tensor<2x2xi32>) -> tensor<2x2xi32>
  // minimum: 000
  %c45 = "stablehlo.constant"() {value = dense<[[1, 2], [7, 8]]> : tensor<2x2xi32>} : () -> tensor<2x2xi32>
  %c46 = "stablehlo.constant"() {value = dense<[[5, 6], [3, 4]]> : tensor<2x2xi32>} : () -> tensor<2x2xi32>
  %r47 = "stablehlo.minimum"(%c45, %c46) : (tensor<2x2xi32>, tensor<2x2xi32>) -> tensor<2x2xi32>
  // and: 000 and 01
  %c48 = "stablehlo.constant"() {value = dense<[[1, 2], [3, 4]]> : tensor<2x2xi32>} : () -> tensor<2x2xi32>
  %c49 = "stablehlo.constant"() {value = dense<[[5, 6], [7, 8]]> : tensor<2x2xi32>} : () -> tensor<2x2xi32>
  %r50 = "stablehlo.and"(%c48, %c49) : (tensor<2x2xi32>, tensor<2x2xi32>) -> tensor<2x2xi32>
  // or: 000, integers and booleans
  %c51 = "stablehlo.constant"() {value = dense<[[1, 2], [3, 4]]> : tensor<2x2xi32>} : () -> tensor<2x2xi32>
  %c52 = "stablehlo.constant"() {value = dense<[[5, 6], [7, 8]]> : tensor<2x2xi32>} : () -> tensor<2x2xi32>
  %r53 = "stablehlo.or"(%c51, %c52) : (tensor<2x2xi32>, tensor<2x2xi32>) -> tensor<2x2xi32>
  %c54 = "stablehlo.constant"() {value = dense<[[false, false], [true, true]]> : tensor<2x2xi1>} : () -> tensor<2x2xi1>
  %c55 = "stablehlo.constant"() {value = dense<[[false, true], [false, true]]> : tensor<2x2xi1>} : () -> tensor<2x2xi1>
  %r56 = "stablehlo.or"(%c54, %c55) : (tensor<2x2xi1>, tensor<2x2xi1>) -> tensor<2x2xi1>
  // xor: 000, integers and booleans
  %c57 = "stablehlo.constant"() {value = dense<[[1, 2], [3, 4]]> : tensor<2x2xi32>} : () -> tensor<2x2xi32>
  %c58 = "stablehlo.constant"() {value = dense<[[5, 6], [7, 8]]> : tensor<2x2xi32>} : () -> tensor<2x2xi32>
  %r59 = "stablehlo.xor"(%c57, %c58) : (tensor<2x2xi32>, tensor<2x2xi32>) -> tensor<2x2xi32>
  %c60 = "stablehlo.constant"() {value = dense<[[false, false], [true, true]]> : tensor<2x2xi1>} : () -> tensor<2x2xi1>
  %c61 = "stablehlo.constant"() {value = dense<[[false, true], [false, true]]> : tensor<2x2xi1>} : () -> tensor<2x2xi1>
  %r62 = "stablehlo.xor"(%c60, %c61) : (tensor<2x2xi1>, tensor<2x2xi1>) -> tensor<2x2xi1>
  // shift_left: 000
  %c63 = "stablehlo.constant"() {value = dense<[-1, 0, 1]> : tensor<3xi64>} : () -> tensor<3xi64>
  %c64 = "stablehlo.constant"() {value = dense<[1, 2, 3]> : tensor<3xi64>} : () -> tensor<3xi64>
  %r65 = "stablehlo.shift_left"(%c63, %c64) : (tensor<3xi64>, tensor<3xi64>) -> tensor<3xi64>
  // shift_right_arithmetic: 000; 01: i8 -128 by 8
  %c66 = "stablehlo.constant"() {value = dense<[-1, 0, 8]> : tensor<3xi64>} : () -> tensor<3xi64>
  %c67 = "stablehlo.constant"() {value = dense<[1, 2, 3]> : tensor<3xi64>} : () -> tensor<3xi64>
  %r68 = "stablehlo.shift_right_arithmetic"(%c66, %c67) : (tensor<3xi64>, tensor<3xi64>) -> tensor<3xi64>
  %c69 = "stablehlo.constant"() {value = dense<-128> : tensor<i8>} : () -> tensor<i8>
  %c70 = "stablehlo.constant"() {value = dense<8> : tensor<i8>} : () -> tensor<i8>
  %r71 = "stablehlo.shift_right_arithmetic"(%c69, %c70) : (tensor<i8>, tensor<i8>) -> tensor<i8>
  // shift_right_logical: 000; 01: i8 -128 by 7
  %c72 = "stablehlo.constant"() {value = dense<[-1, 0, 8]> : tensor<3xi64>} : () -> tensor<3xi64>
  %c73 = "stablehlo.constant"() {value = dense<[1, 2, 3]> : tensor<3xi64>} : () -> tensor<3xi64>
  %r74 = "stablehlo.shift_right_logical"(%c72, %c73) : (tensor<3xi64>, tensor<3xi64>) -> tensor<3xi64>
  %c75 = "stablehlo.constant"() {value = dense<-128> : tensor<i8>} : () -> tensor<i8>
  %c76 = "stablehlo.constant"() {value = dense<7> : tensor<i8>} : () -> tensor<i8>
  %r77 = "stablehlo.shift_right_logical"(%c75, %c76) : (tensor<i8>, tensor<i8>) -> tensor<i8>
  "func.return"() : () -> ()
}

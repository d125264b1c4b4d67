// Ops that work element by element on the examples of 01's table and of 000, operands as constants.
// The second evaluator writes the result of every op: `evaluator ops < examples/element_ops.mlir`.
func.func @main() {
  // abs: 000, and 01: i8 -128
  %c0 = "stablehlo.constant"() {value = dense<[-2, 0, 2]> : tensor<3xi32>} : () -> tensor<3xi32>
  %r1 = "stablehlo.abs"(%c0) : (tensor<3xi32>) -> tensor<3xi32>
  %c2 = "stablehlo.constant"() {value = dense<-128> : tensor<i8>} : () -> tensor<i8>
  %r3 = "stablehlo.abs"(%c2) : (tensor<i8>) -> tensor<i8>
  // sign: 000, as integers
  %c4 = "stablehlo.constant"() {value = dense<[-7, -1, 0, 1]> : tensor<4xi64>} : () -> tensor<4xi64>
  %r5 = "stablehlo.sign"(%c4) : (tensor<4xi64>) -> tensor<4xi64>
  // negate: 000
  %c6 = "stablehlo.constant"() {value = dense<[0, -2]> : tensor<2xi32>} : () -> tensor<2xi32>
  %r7 = "stablehlo.negate"(%c6) : (tensor<2xi32>) -> tensor<2xi32>
  // not: 000, integers and booleans
  %c8 = "stablehlo.constant"() {value = dense<[[1, 2], [3, 4]]> : tensor<2x2xi32>} : () -> tensor<2x2xi32>
  %r9 = "stablehlo.not"(%c8) : (tensor<2x2xi32>) -> tensor<2x2xi32>
  %c10 = "stablehlo.constant"() {value = dense<[true, false]> : tensor<2xi1>} : () -> tensor<2xi1>
  %r11 = "stablehlo.not"(%c10) : (tensor<2xi1>) -> tensor<2xi1>
  // count_leading_zeros: 000
  %c12 = "stablehlo.constant"() {value = dense<[[0, 1], [128, -1]]> : tensor<2x2xi64>} : () -> tensor<2x2xi64>
  %r13 = "stablehlo.count_leading_zeros"(%c12) : (tensor<2x2xi64>) -> tensor<2x2xi64>
  // popcnt: 000
  %c14 = "stablehlo.constant"() {value = dense<[0, 1, 2, 127]> : tensor<4xi64>} : () -> tensor<4xi64>
  %r15 = "stablehlo.popcnt"(%c14) : (tensor<4xi64>) -> tensor<4xi64>
  // convert: 000, to i8 and to i1; 01: i32 300 to ui8, ui8 200 to i8
  %c16 = "stablehlo.constant"() {value = dense<[-1, 0, 1]> : tensor<3xi64>} : () -> tensor<3xi64>
  %r17 = "stablehlo.convert"(%c16) : (tensor<3xi64>) -> tensor<3xi8>
  %c18 = "stablehlo.constant"() {value = dense<[-1, 0, 1]> : tensor<3xi64>} : () -> tensor<3xi64>
  %r19 = "stablehlo.convert"(%c18) : (tensor<3xi64>) -> tensor<3xi1>
  %c20 = "stablehlo.constant"() {value = dense<300> : tensor<i32>} : () -> tensor<i32>
  %r21 = "stablehlo.convert"(%c20) : (tensor<i32>) -> tensor<ui8>
  %c22 = "stablehlo.constant"() {value = dense<200> : tensor<ui8>} : () -> tensor<ui8>
  %r23 = "stablehlo.convert"(%c22) : (tensor<ui8>) -> tensor<i8>
  // compare: 000, times ten as integers; the other directions on the same operands
  %c78 = "stablehlo.constant"() {value = dense<[10, 30]> : tensor<2xi32>} : () -> tensor<2xi32>
  %c79 = "stablehlo.constant"() {value = dense<[11, 29]> : tensor<2xi32>} : () -> tensor<2xi32>
  %r80 = "stablehlo.compare"(%c78, %c79) {comparison_direction = #stablehlo<comparison_direction LT>} : (tensor<2xi32>, tensor<2xi32>) -> tensor<2xi1>
  %c81 = "stablehlo.constant"() {value = dense<[10, 30]> : tensor<2xi32>} : () -> tensor<2xi32>
  %c82 = "stablehlo.constant"() {value = dense<[11, 29]> : tensor<2xi32>} : () -> tensor<2xi32>
  %r83 = "stablehlo.compare"(%c81, %c82) {comparison_direction = #stablehlo<comparison_direction EQ>} : (tensor<2xi32>, tensor<2xi32>) -> tensor<2xi1>
  %c84 = "stablehlo.constant"() {value = dense<[10, 30]> : tensor<2xi32>} : () -> tensor<2xi32>
  %c85 = "stablehlo.constant"() {value = dense<[11, 29]> : tensor<2xi32>} : () -> tensor<2xi32>
  %r86 = "stablehlo.compare"(%c84, %c85) {comparison_direction = #stablehlo<comparison_direction NE>} : (tensor<2xi32>, tensor<2xi32>) -> tensor<2xi1>
  %c87 = "stablehlo.constant"() {value = dense<[10, 30]> : tensor<2xi32>} : () -> tensor<2xi32>
  %c88 = "stablehlo.constant"() {value = dense<[11, 29]> : tensor<2xi32>} : () -> tensor<2xi32>
  %r89 = "stablehlo.compare"(%c87, %c88) {comparison_direction = #stablehlo<comparison_direction GE>} : (tensor<2xi32>, tensor<2xi32>) -> tensor<2xi1>
  %c90 = "stablehlo.constant"() {value = dense<[10, 30]> : tensor<2xi32>} : () -> tensor<2xi32>
  %c91 = "stablehlo.constant"() {value = dense<[11, 29]> : tensor<2xi32>} : () -> tensor<2xi32>
  %r92 = "stablehlo.compare"(%c90, %c91) {comparison_direction = #stablehlo<comparison_direction GT>} : (tensor<2xi32>, tensor<2xi32>) -> tensor<2xi1>
  %c93 = "stablehlo.constant"() {value = dense<[10, 30]> : tensor<2xi32>} : () -> tensor<2xi32>
  %c94 = "stablehlo.constant"() {value = dense<[11, 29]> : tensor<2xi32>} : () -> tensor<2xi32>
  %r95 = "stablehlo.compare"(%c93, %c94) {comparison_direction = #stablehlo<comparison_direction LE>} : (tensor<2xi32>, tensor<2xi32>) -> tensor<2xi1>
  // select: 000
  %c96 = "stablehlo.constant"() {value = dense<[[false, true], [true, false]]> : tensor<2x2xi1>} : () -> tensor<2x2xi1>
  %c97 = "stablehlo.constant"() {value = dense<[[1, 2], [3, 4]]> : tensor<2x2xi32>} : () -> tensor<2x2xi32>
  %c98 = "stablehlo.constant"() {value = dense<[[5, 6], [7, 8]]> : tensor<2x2xi32>} : () -> tensor<2x2xi32>
  %r99 = "stablehlo.select"(%c96, %c97, %c98) : (tensor<2x2xi1>, tensor<2x2xi32>, tensor<2x2xi32>) -> tensor<2x2xi32>
  // clamp: 000; 01: min 5, x 4, max 3
  %c100 = "stablehlo.constant"() {value = dense<[5, 10, 15]> : tensor<3xi32>} : () -> tensor<3xi32>
  %c101 = "stablehlo.constant"() {value = dense<[3, 13, 23]> : tensor<3xi32>} : () -> tensor<3xi32>
  %c102 = "stablehlo.constant"() {value = dense<[10, 15, 20]> : tensor<3xi32>} : () -> tensor<3xi32>
  %r103 = "stablehlo.clamp"(%c100, %c101, %c102) : (tensor<3xi32>, tensor<3xi32>, tensor<3xi32>) -> tensor<3xi32>
  %c104 = "stablehlo.constant"() {value = dense<5> : tensor<i32>} : () -> tensor<i32>
  %c105 = "stablehlo.constant"() {value = dense<4> : tensor<i32>} : () -> tensor<i32>
  %c106 = "stablehlo.constant"() {value = dense<3> : tensor<i32>} : () -> tensor<i32>
  %r107 = "stablehlo.clamp"(%c104, %c105, %c106) : (tensor<i32>, tensor<i32>, tensor<i32>) -> tensor<i32>
  // divide: 01, the four signs, and the lowest by -1
  %q0 = "stablehlo.constant"() {value = dense<[17, -17, 17, -17]> : tensor<4xi32>} : () -> tensor<4xi32>
  %q1 = "stablehlo.constant"() {value = dense<[3, 3, -3, -3]> : tensor<4xi32>} : () -> tensor<4xi32>
  %q2 = "stablehlo.divide"(%q0, %q1) : (tensor<4xi32>, tensor<4xi32>) -> tensor<4xi32>
  %q3 = "stablehlo.constant"() {value = dense<-128> : tensor<i8>} : () -> tensor<i8>
  %q4 = "stablehlo.constant"() {value = dense<-1> : tensor<i8>} : () -> tensor<i8>
  %q5 = "stablehlo.divide"(%q3, %q4) : (tensor<i8>, tensor<i8>) -> tensor<i8>
  // remainder: 01, likewise
  %q6 = "stablehlo.remainder"(%q0, %q1) : (tensor<4xi32>, tensor<4xi32>) -> tensor<4xi32>
  %q7 = "stablehlo.remainder"(%q3, %q4) : (tensor<i8>, tensor<i8>) -> tensor<i8>
  "func.return"() : () -> ()
}

// Reductions: a body of one op, a start value, the dimensions that vanish. Over no elements the
// result is the start value.
func.func @main() -> tensor<2xi32>, tensor<3xi32>, tensor<i32>, tensor<2xi32> {
  %x = "stablehlo.constant"() {value = dense<[[1, 2, 3], [4, 5, 6]]> : tensor<2x3xi32>} : () -> tensor<2x3xi32>
  %none = "stablehlo.constant"() {value = dense<[[], []]> : tensor<2x0xi32>} : () -> tensor<2x0xi32>
  %zero = "stablehlo.constant"() {value = dense<0> : tensor<i32>} : () -> tensor<i32>
  %lowest = "stablehlo.constant"() {value = dense<-2147483648> : tensor<i32>} : () -> tensor<i32>
  %seven = "stablehlo.constant"() {value = dense<7> : tensor<i32>} : () -> tensor<i32>
  %rows = "stablehlo.reduce"(%x, %zero) ({
    ^bb0(%a: tensor<i32>, %b: tensor<i32>):
      %sum = "stablehlo.add"(%a, %b) : (tensor<i32>, tensor<i32>) -> tensor<i32>
      "stablehlo.return"(%sum) : (tensor<i32>) -> ()
  }) {dimensions = array<i64: 1>} : (tensor<2x3xi32>, tensor<i32>) -> tensor<2xi32>
  %columns = "stablehlo.reduce"(%x, %lowest) ({
    ^bb0(%a: tensor<i32>, %b: tensor<i32>):
      %larger = "stablehlo.maximum"(%a, %b) : (tensor<i32>, tensor<i32>) -> tensor<i32>
      "stablehlo.return"(%larger) : (tensor<i32>) -> ()
  }) {dimensions = array<i64: 0>} : (tensor<2x3xi32>, tensor<i32>) -> tensor<3xi32>
  %all = "stablehlo.reduce"(%x, %zero) ({
    ^bb0(%a: tensor<i32>, %b: tensor<i32>):
      %mixed = "stablehlo.xor"(%a, %b) : (tensor<i32>, tensor<i32>) -> tensor<i32>
      "stablehlo.return"(%mixed) : (tensor<i32>) -> ()
  }) {dimensions = array<i64: 0, 1>} : (tensor<2x3xi32>, tensor<i32>) -> tensor<i32>
  %over_none = "stablehlo.reduce"(%none, %seven) ({
    ^bb0(%a: tensor<i32>, %b: tensor<i32>):
      %sum = "stablehlo.add"(%a, %b) : (tensor<i32>, tensor<i32>) -> tensor<i32>
      "stablehlo.return"(%sum) : (tensor<i32>) -> ()
  }) {dimensions = array<i64: 1>} : (tensor<2x0xi32>, tensor<i32>) -> tensor<2xi32>
  "func.return"(%rows, %columns, %all, %over_none) : (tensor<2xi32>, tensor<3xi32>, tensor<i32>, tensor<2xi32>) -> ()
}

// Whole-number arithmetic: division drops the fraction toward zero, the remainder has the
// dividend's sign, so lhs = quotient * rhs + remainder in every element.
func.func @main() -> tensor<4xi32>, tensor<4xi32>, tensor<4xi1>, tensor<4xi32>, tensor<4xi32> {
  %lhs = "stablehlo.constant"() {value = dense<[17, -17, 17, -17]> : tensor<4xi32>} : () -> tensor<4xi32>
  %rhs = "stablehlo.constant"() {value = dense<[3, 3, -3, -3]> : tensor<4xi32>} : () -> tensor<4xi32>
  %quotient = "stablehlo.divide"(%lhs, %rhs) : (tensor<4xi32>, tensor<4xi32>) -> tensor<4xi32>
  %remainder = "stablehlo.remainder"(%lhs, %rhs) : (tensor<4xi32>, tensor<4xi32>) -> tensor<4xi32>
  %product = "stablehlo.multiply"(%quotient, %rhs) : (tensor<4xi32>, tensor<4xi32>) -> tensor<4xi32>
  %again = "stablehlo.add"(%product, %remainder) : (tensor<4xi32>, tensor<4xi32>) -> tensor<4xi32>
  %same = "stablehlo.compare"(%again, %lhs) {
    comparison_direction = #stablehlo<comparison_direction EQ>
  } : (tensor<4xi32>, tensor<4xi32>) -> tensor<4xi1>
  %negated = "stablehlo.negate"(%lhs) : (tensor<4xi32>) -> tensor<4xi32>
  %difference = "stablehlo.subtract"(%negated, %rhs) : (tensor<4xi32>, tensor<4xi32>) -> tensor<4xi32>
  %sign = "stablehlo.sign"(%difference) : (tensor<4xi32>) -> tensor<4xi32>
  %size = "stablehlo.abs"(%difference) : (tensor<4xi32>) -> tensor<4xi32>
  "func.return"(%quotient, %remainder, %same, %sign, %size) : (tensor<4xi32>, tensor<4xi32>, tensor<4xi1>, tensor<4xi32>, tensor<4xi32>) -> ()
}

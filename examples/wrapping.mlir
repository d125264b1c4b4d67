// Results are taken modulo 2^n into the type's range. Only abs of the lowest value is special: it
// saturates to the highest.
func.func @main() -> tensor<i8>, tensor<ui8>, tensor<i8>, tensor<i8>, tensor<i8>, tensor<i1> {
  %low = "stablehlo.constant"() {value = dense<-128> : tensor<i8>} : () -> tensor<i8>
  %high = "stablehlo.constant"() {value = dense<127> : tensor<i8>} : () -> tensor<i8>
  %one = "stablehlo.constant"() {value = dense<1> : tensor<i8>} : () -> tensor<i8>
  %minus = "stablehlo.constant"() {value = dense<-1> : tensor<i8>} : () -> tensor<i8>
  %full = "stablehlo.constant"() {value = dense<255> : tensor<ui8>} : () -> tensor<ui8>
  %unit = "stablehlo.constant"() {value = dense<1> : tensor<ui8>} : () -> tensor<ui8>
  %yes = "stablehlo.constant"() {value = dense<true> : tensor<i1>} : () -> tensor<i1>
  // 127 + 1 is -128, and 255 + 1 is 0.
  %past_high = "stablehlo.add"(%high, %one) : (tensor<i8>, tensor<i8>) -> tensor<i8>
  %past_full = "stablehlo.add"(%full, %unit) : (tensor<ui8>, tensor<ui8>) -> tensor<ui8>
  // -128 by -1 would be 128: the quotient stays the lowest value.
  %quotient = "stablehlo.divide"(%low, %minus) : (tensor<i8>, tensor<i8>) -> tensor<i8>
  %negated = "stablehlo.negate"(%low) : (tensor<i8>) -> tensor<i8>
  %size = "stablehlo.abs"(%low) : (tensor<i8>) -> tensor<i8>
  // On booleans add is or.
  %either = "stablehlo.add"(%yes, %yes) : (tensor<i1>, tensor<i1>) -> tensor<i1>
  "func.return"(%past_high, %past_full, %quotient, %negated, %size, %either) : (tensor<i8>, tensor<ui8>, tensor<i8>, tensor<i8>, tensor<i8>, tensor<i1>) -> ()
}

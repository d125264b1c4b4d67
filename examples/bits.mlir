// Bit by bit on i8: and, or, xor, not, counts, and the three shifts. An amount below 0 or at least
// the width shifts everything out.
func.func @main() -> tensor<4xi8>, tensor<4xi8>, tensor<4xi8>, tensor<4xi8>, tensor<4xi8>, tensor<4xi8>, tensor<4xi8>, tensor<4xi8> {
  %x = "stablehlo.constant"() {value = dense<[1, 12, -128, -1]> : tensor<4xi8>} : () -> tensor<4xi8>
  %mask = "stablehlo.constant"() {value = dense<10> : tensor<4xi8>} : () -> tensor<4xi8>
  %amount = "stablehlo.constant"() {value = dense<[3, 2, 7, 8]> : tensor<4xi8>} : () -> tensor<4xi8>
  %and = "stablehlo.and"(%x, %mask) : (tensor<4xi8>, tensor<4xi8>) -> tensor<4xi8>
  %or = "stablehlo.or"(%x, %mask) : (tensor<4xi8>, tensor<4xi8>) -> tensor<4xi8>
  %xor = "stablehlo.xor"(%x, %mask) : (tensor<4xi8>, tensor<4xi8>) -> tensor<4xi8>
  %not = "stablehlo.not"(%x) : (tensor<4xi8>) -> tensor<4xi8>
  %ones = "stablehlo.popcnt"(%x) : (tensor<4xi8>) -> tensor<4xi8>
  %zeros = "stablehlo.count_leading_zeros"(%x) : (tensor<4xi8>) -> tensor<4xi8>
  %counts = "stablehlo.add"(%ones, %zeros) : (tensor<4xi8>, tensor<4xi8>) -> tensor<4xi8>
  %left = "stablehlo.shift_left"(%x, %amount) : (tensor<4xi8>, tensor<4xi8>) -> tensor<4xi8>
  %arithmetic = "stablehlo.shift_right_arithmetic"(%x, %amount) : (tensor<4xi8>, tensor<4xi8>) -> tensor<4xi8>
  %logical = "stablehlo.shift_right_logical"(%x, %amount) : (tensor<4xi8>, tensor<4xi8>) -> tensor<4xi8>
  "func.return"(%and, %or, %xor, %not, %counts, %left, %arithmetic, %logical) : (tensor<4xi8>, tensor<4xi8>, tensor<4xi8>, tensor<4xi8>, tensor<4xi8>, tensor<4xi8>, tensor<4xi8>, tensor<4xi8>) -> ()
}

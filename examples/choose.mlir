// Comparing and choosing: compare gives booleans, select takes one of two elements by a boolean,
// clamp holds an element between two bounds, each of which may be one value for all.
func.func @main() -> tensor<5xi1>, tensor<5xi16>, tensor<5xi16>, tensor<5xi16>, tensor<5xi16> {
  %x = "stablehlo.constant"() {value = dense<[-20, -3, 0, 4, 30]> : tensor<5xi16>} : () -> tensor<5xi16>
  %zero = "stablehlo.constant"() {value = dense<0> : tensor<5xi16>} : () -> tensor<5xi16>
  %low = "stablehlo.constant"() {value = dense<-5> : tensor<i16>} : () -> tensor<i16>
  %high = "stablehlo.constant"() {value = dense<[9, 9, 9, 1, 9]> : tensor<5xi16>} : () -> tensor<5xi16>
  %negative = "stablehlo.compare"(%x, %zero) {
    comparison_direction = #stablehlo<comparison_direction LT>,
    compare_type = #stablehlo<comparison_type SIGNED>
  } : (tensor<5xi16>, tensor<5xi16>) -> tensor<5xi1>
  %chosen = "stablehlo.select"(%negative, %zero, %x) : (tensor<5xi1>, tensor<5xi16>, tensor<5xi16>) -> tensor<5xi16>
  %larger = "stablehlo.maximum"(%x, %zero) : (tensor<5xi16>, tensor<5xi16>) -> tensor<5xi16>
  %smaller = "stablehlo.minimum"(%x, %high) : (tensor<5xi16>, tensor<5xi16>) -> tensor<5xi16>
  %held = "stablehlo.clamp"(%low, %x, %high) : (tensor<i16>, tensor<5xi16>, tensor<5xi16>) -> tensor<5xi16>
  "func.return"(%negative, %chosen, %larger, %smaller, %held) : (tensor<5xi1>, tensor<5xi16>, tensor<5xi16>, tensor<5xi16>, tensor<5xi16>) -> ()
}

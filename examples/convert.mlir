// Conversions wrap into the new type's range; to i1 every value but zero becomes true.
func.func @main() -> tensor<3xui8>, tensor<3xi8>, tensor<3xui64>, tensor<3xi1>, tensor<3xi32> {
  %x = "stablehlo.constant"() {value = dense<[300, 0, -1]> : tensor<3xi32>} : () -> tensor<3xi32>
  %bytes = "stablehlo.convert"(%x) : (tensor<3xi32>) -> tensor<3xui8>
  %signed = "stablehlo.convert"(%bytes) : (tensor<3xui8>) -> tensor<3xi8>
  %wide = "stablehlo.convert"(%signed) : (tensor<3xi8>) -> tensor<3xui64>
  %some = "stablehlo.convert"(%x) : (tensor<3xi32>) -> tensor<3xi1>
  %counted = "stablehlo.convert"(%some) : (tensor<3xi1>) -> tensor<3xi32>
  "func.return"(%bytes, %signed, %wide, %some, %counted) : (tensor<3xui8>, tensor<3xi8>, tensor<3xui64>, tensor<3xi1>, tensor<3xi32>) -> ()
}

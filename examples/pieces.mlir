// Cutting out and putting together. Padding may be negative, which crops; the starts of a
// dynamic_slice are clamped so that the slice lies inside.
func.func @main() -> tensor<2xi32>, tensor<6xi32>, tensor<8xi32>, tensor<2xi32>, tensor<2xi32> {
  %x = "stablehlo.constant"() {value = dense<[1, 2, 3, 4, 5]> : tensor<5xi32>} : () -> tensor<5xi32>
  %fill = "stablehlo.constant"() {value = dense<0> : tensor<i32>} : () -> tensor<i32>
  %far = "stablehlo.constant"() {value = dense<200> : tensor<ui8>} : () -> tensor<ui8>
  %before = "stablehlo.constant"() {value = dense<-7> : tensor<i8>} : () -> tensor<i8>
  // Elements 1 and 3.
  %odd = "stablehlo.slice"(%x) {
    start_indices = array<i64: 1>,
    limit_indices = array<i64: 5>,
    strides = array<i64: 2>
  } : (tensor<5xi32>) -> tensor<2xi32>
  %three = "stablehlo.slice"(%x) {
    start_indices = array<i64: 0>,
    limit_indices = array<i64: 3>,
    strides = array<i64: 1>
  } : (tensor<5xi32>) -> tensor<3xi32>
  // 1 0 2 0 3, without its first element, with two more at the end.
  %padded = "stablehlo.pad"(%three, %fill) {
    edge_padding_low = array<i64: -1>,
    edge_padding_high = array<i64: 2>,
    interior_padding = array<i64: 1>
  } : (tensor<3xi32>, tensor<i32>) -> tensor<6xi32>
  %joined = "stablehlo.concatenate"(%three, %odd, %three) {dimension = 0 : i64} : (tensor<3xi32>, tensor<2xi32>, tensor<3xi32>) -> tensor<8xi32>
  %last = "stablehlo.dynamic_slice"(%x, %far) {slice_sizes = array<i64: 2>} : (tensor<5xi32>, tensor<ui8>) -> tensor<2xi32>
  %first = "stablehlo.dynamic_slice"(%x, %before) {slice_sizes = array<i64: 2>} : (tensor<5xi32>, tensor<i8>) -> tensor<2xi32>
  "func.return"(%odd, %padded, %joined, %last, %first) : (tensor<2xi32>, tensor<6xi32>, tensor<8xi32>, tensor<2xi32>, tensor<2xi32>) -> ()
}

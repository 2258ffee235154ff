"a"() : () -> ()
// -----
set-attr #1 a ""
print
set-attr #1 a "\C2\80"
print
set-attr #1 a "߿"
print
set-attr #1 a "\DF\BF"
print
set-attr #1 a "ࠀ"
print
set-attr #1 a "\E0\A0\80"
print
set-attr #1 a "퟿"
print
set-attr #1 a "\ED\9F\BF"
print
set-attr #1 a ""
print
set-attr #1 a "\EE\80\80"
print
set-attr #1 a "𐀀"
print
set-attr #1 a "\F0\90\80\80"
print
set-attr #1 a "􏿿"
print
set-attr #1 a "\F4\8F\BF\BF"
print
set-attr #1 a "￿"
print
set-attr #1 a "\EF\BF\BF"
print

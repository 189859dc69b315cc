module dcsctp

go 1.19

module starload

go 1.18

module bobbinjade

go 1.19

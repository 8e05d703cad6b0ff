module smith

go 1.19

module bwtree

go 1.19

module github.com/octseq/octseq/go

go 1.19

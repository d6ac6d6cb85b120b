module runtime_of_separate_blocks

go 1.19

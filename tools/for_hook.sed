# Has a laid-out module call slh_between_layers (c/exports/board.c) before each layer of a hypertree, for
# tools/targets.py: LLVM's text in, the same out. No contract knows of the call, which gets nothing and gives nothing.
/^define .*@"slh_few::hypertree::root_from"\(/ {
    n
    a\  call void @slh_between_layers()
}
$ a\declare void @slh_between_layers()

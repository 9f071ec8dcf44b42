# What the contracts of a Rattle source file say: each line that brings words in, and of each public function one line,
# from `pub` to its body, without `extern "C"`.
/^ghost use / { print }
/^pub .*fn / { is_head = 1 }
is_head {
    line = $0
    gsub(/^ +| +$/, "", line)
    sub(/extern "C" /, "", line)
    head = head (head == "" ? "" : " ") line
    if (line ~ /{$/ && $0 !~ /^ /) {
        print head
        head = ""
        is_head = 0
    }
}

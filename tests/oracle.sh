# For the scripts that run the library beside the Rust of the papers (../shared/docs/src). `oracle NAME` builds target/differential/NAME from
# tests/differential/NAME.rs, the library's archive and the papers' four files, unchanged; it says in one line what is lacking and answers 1
# where it cannot be built here.
oracle() {
    local papers=../shared/docs/src/src wanted byteorder
    for wanted in rustc gcc; do
        command -v $wanted >/dev/null 2>&1 || { echo "beside the Rust: left out, no $wanted here"; return 1; }
    done
    [ -d "$papers" ] || { echo "beside the Rust: left out, the papers' Rust is not here"; return 1; }
    byteorder() { dpkg -L librust-byteorder-dev 2>/dev/null | grep '/src/lib.rs$' | head -n 1; }
    if [ -z "$(byteorder)" ]; then
        (apt-get update -qq && apt-get install -y -qq librust-byteorder-dev) >/dev/null 2>&1 || true
    fi
    [ -n "$(byteorder)" ] || { echo "beside the Rust: left out, Debian's librust-byteorder-dev cannot be had"; return 1; }
    mkdir -p target/differential
    bash tests/archive
    rustc --edition 2021 -O --crate-type rlib --crate-name byteorder --cap-lints allow --cfg 'feature="std"' -o target/differential/libbyteorder.rlib "$(byteorder)"
    cp "$papers"/datatype.rs "$papers"/bytes.rs "$papers"/convert.rs "$papers"/error.rs tests/differential/*.rs target/differential/
    rustc --edition 2021 -O --crate-type rlib --crate-name datatype_message -L native=target/staticlib -l static=abi -o target/differential/libdatatype_message.rlib hosts/rust/src/lib.rs
    rustc --edition 2024 -C opt-level=3 --cap-lints allow --cfg 'feature="std"' --extern byteorder=target/differential/libbyteorder.rlib \
        --extern datatype_message=target/differential/libdatatype_message.rlib -L native=target/staticlib -o "target/differential/$1" "target/differential/$1.rs"
}

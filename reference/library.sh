# Builds the product's static library and sets LORA_LIB_DIR to its folder. To be sourced from the repository's root.
mkdir -p target
echo "building target/staticlib/liblora_c.a (a minute; much longer where its crates are still to be proved)" >&2
tools/build library
export LORA_LIB_DIR="$PWD/target/staticlib"

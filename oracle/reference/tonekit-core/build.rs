fn main() {
    lay::lay("tonekit-core");
}

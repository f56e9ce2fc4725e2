fn main() {
    lay::lay("tonekit-segment");
}

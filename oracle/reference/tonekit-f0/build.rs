fn main() {
    lay::lay("tonekit-f0");
}

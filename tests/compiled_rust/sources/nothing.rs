enum Nothing {
}

// The configuration, which the build script and the program both include.
odht::config! {
    /// From the code of a country to its telephone prefix.
    pub Prefixes: [u8; 2] => u16, by Xxh64
}

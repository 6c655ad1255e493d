enum T { #[token("z")] Z, #[regex("[a-z]")] L }

"""A model of the program's proofs in plain Python, for bin/hostile: fields, transcript, texts, a prover of all tables but those of hashes, and
the reports of `explain`.

It was written from docs/FORMATS.md and shares no line with the crates, so that where both agree neither is wrong alone."""

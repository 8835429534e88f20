# driver.rs: a last line without a newline is lost
s/^        if !end {$/        if line.ends_with(b"\\n") {/

# script.rs: a dead generation stops the program, as the Rust does
s/Some(&Some(held)) if i32::from(held) == generation => {/Some(\&Some(_)) => {/

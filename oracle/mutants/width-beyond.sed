# etagere/src/allocator.rs: an item of exactly the width asked does not fit
s/if !item.allocated \&\& item.width >= width {/if !item.allocated \&\& item.width > width {/

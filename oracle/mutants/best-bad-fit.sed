# etagere/src/allocator.rs: the best bad fit is taken, not the first
s/if bad_fit && selected_shelf.is_some() {/if bad_fit \&\& selected_shelf.is_some() \&\& (selected_shelf_height != std::u16::MAX || self.shelves[selected_shelf.index()].height <= shelf.height) {/

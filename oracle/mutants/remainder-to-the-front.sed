# etagere/src/allocator.rs: what is left of a split item goes to the front of the free list
/^            \/\/ Replace the item in the "unallocated" list\.$/,/^        } else {$/c\
            if self.shelves[selected_shelf.index()].first_unallocated == selected_item {\
                self.shelves[selected_shelf.index()].first_unallocated = item.next_unallocated;\
            }\
            if item.prev_unallocated.is_some() {\
                self.items[item.prev_unallocated.index()].next_unallocated = item.next_unallocated;\
            }\
            if item.next_unallocated.is_some() {\
                self.items[item.next_unallocated.index()].prev_unallocated = item.prev_unallocated;\
            }\
            let first = self.shelves[selected_shelf.index()].first_unallocated;\
            if first.is_some() {\
                self.items[first.index()].prev_unallocated = new_item_idx;\
            }\
            self.items[new_item_idx.index()].next_unallocated = first;\
            self.items[new_item_idx.index()].prev_unallocated = ItemIndex::NONE;\
            self.shelves[selected_shelf.index()].first_unallocated = new_item_idx;\
        } else {

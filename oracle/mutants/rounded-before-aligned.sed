# etagere/src/allocator.rs: the depth is rounded before it is aligned
s/^        let height = shelf_height(height, self.size.height);$//
s/^        adjust_size(self.alignment.width, &mut size.width);$/        if self.flip_xy { size.width = shelf_height(size.width, self.size.height) } else { size.height = shelf_height(size.height, self.size.height) }\
&/

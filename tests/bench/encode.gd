# Encodes a picture as BC6H by Godot's encoder (Debian: godot3-server): godot3-server -s tests/bench/encode.gd IN.exr OUT.blocks
# Prints the format number of Godot: 24 unsigned, 23 signed (a picture that has a value below zero).
extends SceneTree

const BPTC = 5


func _init():
	var words = OS.get_cmdline_args()
	var image = Image.new()
	if image.load(words[words.size() - 2]) == OK:
		image.clear_mipmaps()
		if image.compress(BPTC, Image.COMPRESS_SOURCE_GENERIC, 0.7) == OK:
			var file = File.new()
			file.open(words[words.size() - 1], File.WRITE)
			file.store_buffer(image.get_data())
			file.close()
			print("format ", image.get_format())
	quit()

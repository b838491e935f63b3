--  Images: the calls of the library norphuen_images. The comments of
--  include/norphuen.h hold here too. An id has a type of its own, so no
--  handle or length takes its place. Bytes'Write and Bytes'Read write and
--  read an image in a stream.
package Norphuen.Images is

   --  A heap: closed or open. Its fields are the library's own.
   type Heap is limited record
      At_Address : System.Address := System.Null_Address;
      Last       : Unsigned_32    := 0;
      Is_Open    : Unsigned_8     := 0;
   end record
   with Convention => C;

   --  Names an object. The program chooses it.
   type Object_Id is new Unsigned_32 range 0 .. 65_535
   with Size => 32;

   function Nph_Open
     (H : in out Heap; Pages, Page_Bytes, K, Proxies : Unsigned_32)
      return Code
   with Import, Convention => C, External_Name => "nph_images_open";

   function Nph_Bytes_Needed
     (Pages, Page_Bytes, K, Proxies : Unsigned_32; Result : in out Needed)
      return Code
   with Import, Convention => C, External_Name => "nph_images_bytes_needed";

   --  With the code Image, Offset is where Data stops being an image.
   function Nph_Load
     (H      : in out Heap; Data : Bytes; Count : size_t; K : Unsigned_32;
      Offset : in out Unsigned_64)
      return Code
   with Import, Convention => C, External_Name => "nph_images_load";

   procedure Nph_Close (H : in out Heap)
   with Import, Convention => C, External_Name => "nph_images_close";

   function Nph_Make
     (H : in out Heap; Id : Object_Id; Bytes : Unsigned_32) return Code
   with Import, Convention => C, External_Name => "nph_images_make";

   function Nph_Free (H : in out Heap; Id : Object_Id) return Code
   with Import, Convention => C, External_Name => "nph_images_free";

   function Nph_Write
     (H     : in out Heap; Id : Object_Id; At_Byte : Unsigned_32;
      Data  : Bytes; Count : size_t)
      return Code
   with Import, Convention => C, External_Name => "nph_images_write";

   function Nph_Read
     (H     : in out Heap; Id : Object_Id; At_Byte : Unsigned_32;
      Data  : in out Bytes; Count : size_t)
      return Code
   with Import, Convention => C, External_Name => "nph_images_read";

   function Nph_Length
     (H : in out Heap; Id : Object_Id; Length : in out Unsigned_32)
      return Code
   with Import, Convention => C, External_Name => "nph_images_length";

   function Nph_Image_Bytes
     (H : in out Heap; Count : in out Unsigned_64) return Code
   with Import, Convention => C, External_Name => "nph_images_image_bytes";

   function Nph_Save
     (H       : in out Heap; Data : in out Bytes; Count : size_t;
      Written : in out Unsigned_64)
      return Code
   with Import, Convention => C, External_Name => "nph_images_save";

   function Nph_Version return Unsigned_32
   with Import, Convention => C, External_Name => "nph_images_version";

end Norphuen.Images;

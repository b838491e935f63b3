--  Long objects: the calls of the library norphuen_large. The comments of
--  include/norphuen.h hold here too.
package Norphuen.Large is

   --  A heap: closed or open. Its fields are the library's own.
   type Heap is limited record
      At_Address : System.Address := System.Null_Address;
      Last       : Unsigned_32    := 0;
      Is_Open    : Unsigned_8     := 0;
   end record
   with Convention => C;

   function Nph_Open
     (H : in out Heap; Pages, Page_Bytes, Proxies : Unsigned_32) return Code
   with Import, Convention => C, External_Name => "nph_large_open";

   function Nph_Bytes_Needed
     (Pages, Page_Bytes, Proxies : Unsigned_32; Result : in out Needed)
      return Code
   with Import, Convention => C, External_Name => "nph_large_bytes_needed";

   procedure Nph_Close (H : in out Heap)
   with Import, Convention => C, External_Name => "nph_large_close";

   function Nph_Malloc
     (H : in out Heap; Bytes : Unsigned_32; Handle : in out Unsigned_32)
      return Code
   with Import, Convention => C, External_Name => "nph_large_malloc";

   --  Frees an object with all its parts.
   function Nph_Free (H : in out Heap; Handle : Unsigned_32) return Code
   with Import, Convention => C, External_Name => "nph_large_free";

   function Nph_Write
     (H     : in out Heap; Handle : Unsigned_32; At_Byte : Unsigned_32;
      Data  : Bytes; Count : size_t)
      return Code
   with Import, Convention => C, External_Name => "nph_large_write";

   function Nph_Read
     (H     : in out Heap; Handle : Unsigned_32; At_Byte : Unsigned_32;
      Data  : in out Bytes; Count : size_t)
      return Code
   with Import, Convention => C, External_Name => "nph_large_read";

   function Nph_Length
     (H : in out Heap; Handle : Unsigned_32; Length : in out Unsigned_32)
      return Code
   with Import, Convention => C, External_Name => "nph_large_length";

   function Nph_Figures
     (H : in out Heap; Size_Class : Unsigned_32; Result : in out Class)
      return Code
   with Import, Convention => C, External_Name => "nph_large_figures";

   function Nph_Totals
     (H : in out Heap; Result : in out Heap_Totals) return Code
   with Import, Convention => C, External_Name => "nph_large_totals";

   function Nph_Last_Steps
     (H : in out Heap; Steps : in out Unsigned_64) return Code
   with Import, Convention => C, External_Name => "nph_large_last_steps";

   --  The most steps of a call, before it is made.
   function Nph_Most_Malloc
     (Page_Bytes, Bytes : Unsigned_32) return Unsigned_64
   with Import, Convention => C, External_Name => "nph_large_most_malloc";

   function Nph_Most_Free
     (Page_Bytes, Bytes : Unsigned_32) return Unsigned_64
   with Import, Convention => C, External_Name => "nph_large_most_free";

   function Nph_Most_Access
     (Page_Bytes, At_Byte, Count : Unsigned_32) return Unsigned_64
   with Import, Convention => C, External_Name => "nph_large_most_access";

   function Nph_Version return Unsigned_32
   with Import, Convention => C, External_Name => "nph_large_version";

end Norphuen.Large;

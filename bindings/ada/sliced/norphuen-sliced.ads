--  Frees in slices: the calls of the library norphuen_sliced. The comments
--  of include/norphuen.h hold here too.
package Norphuen.Sliced is

   --  A heap: closed, open or lent. Its fields are the library's own.
   type Heap is limited record
      At_Address : System.Address := System.Null_Address;
      Last       : Unsigned_32    := 0;
      Is_Open    : Unsigned_8     := 0;
      Is_Lent    : Unsigned_8     := 0;
   end record
   with Convention => C;

   function Nph_Open
     (H : in out Heap; Pages, Page_Bytes, Proxies, Quantum : Unsigned_32)
      return Code
   with Import, Convention => C, External_Name => "nph_sliced_open";

   function Nph_Bytes_Needed
     (Pages, Page_Bytes, Proxies : Unsigned_32; Result : in out Needed)
      return Code
   with Import, Convention => C, External_Name => "nph_sliced_bytes_needed";

   procedure Nph_Close (H : in out Heap)
   with Import, Convention => C, External_Name => "nph_sliced_close";

   function Nph_Malloc
     (H : in out Heap; Bytes : Unsigned_32; Handle : in out Unsigned_32)
      return Code
   with Import, Convention => C, External_Name => "nph_sliced_malloc";

   function Nph_Free (H : in out Heap; Handle : Unsigned_32) return Code
   with Import, Convention => C, External_Name => "nph_sliced_free";

   --  Does one slice of the pending job.
   function Nph_Step (H : in out Heap) return Code
   with Import, Convention => C, External_Name => "nph_sliced_step";

   --  The words that the pending job has yet to clear or move.
   function Nph_Left (H : in out Heap; Words : in out Unsigned_32) return Code
   with Import, Convention => C, External_Name => "nph_sliced_left";

   --  The object that the pending job moves, or None.
   function Nph_Moving
     (H : in out Heap; Handle : in out Unsigned_32) return Code
   with Import, Convention => C, External_Name => "nph_sliced_moving";

   function Nph_Write
     (H     : in out Heap; Handle : Unsigned_32; At_Byte : Unsigned_32;
      Data  : Bytes; Count : size_t)
      return Code
   with Import, Convention => C, External_Name => "nph_sliced_write";

   function Nph_Read
     (H     : in out Heap; Handle : Unsigned_32; At_Byte : Unsigned_32;
      Data  : in out Bytes; Count : size_t)
      return Code
   with Import, Convention => C, External_Name => "nph_sliced_read";

   function Nph_Length
     (H : in out Heap; Handle : Unsigned_32; Length : in out Unsigned_32)
      return Code
   with Import, Convention => C, External_Name => "nph_sliced_length";

   function Nph_Has_Room (H : in out Heap; Bytes : Unsigned_32) return Code
   with Import, Convention => C, External_Name => "nph_sliced_has_room";

   function Nph_Slot_Words
     (H : in out Heap; Handle : Unsigned_32; Words : in out Unsigned_32)
      return Code
   with Import, Convention => C, External_Name => "nph_sliced_slot_words";

   function Nph_Class_Of
     (H          : in out Heap; Bytes : Unsigned_32;
      Size_Class : in out Unsigned_32)
      return Code
   with Import, Convention => C, External_Name => "nph_sliced_class_of";

   function Nph_Figures
     (H : in out Heap; Size_Class : Unsigned_32; Result : in out Class)
      return Code
   with Import, Convention => C, External_Name => "nph_sliced_figures";

   function Nph_Totals
     (H : in out Heap; Result : in out Heap_Totals) return Code
   with Import, Convention => C, External_Name => "nph_sliced_totals";

   function Nph_Last_Steps
     (H : in out Heap; Steps : in out Unsigned_64) return Code
   with Import, Convention => C, External_Name => "nph_sliced_last_steps";

   --  Each Nph_Free and Nph_Step may change the place of another object.
   function Nph_Place
     (H : in out Heap; Handle : Unsigned_32; Place : in out Unsigned_32)
      return Code
   with Import, Convention => C, External_Name => "nph_sliced_place";

   --  Fails with Busy if a job is pending.
   function Nph_Lend
     (H : in out Heap; Words : in out System.Address) return Code
   with Import, Convention => C, External_Name => "nph_sliced_lend";

   function Nph_Return (H : in out Heap) return Code
   with Import, Convention => C, External_Name => "nph_sliced_return";

   function Nph_Version return Unsigned_32
   with Import, Convention => C, External_Name => "nph_sliced_version";

   --  The most steps of a call, before it is made.
   function Nph_Most_Malloc return Unsigned_64
   with Import, Convention => C, External_Name => "nph_sliced_most_malloc";

   function Nph_Most_Free (Quantum : Unsigned_32) return Unsigned_64
   with Import, Convention => C, External_Name => "nph_sliced_most_free";

   function Nph_Most_Step (Quantum : Unsigned_32) return Unsigned_64
   with Import, Convention => C, External_Name => "nph_sliced_most_step";

   function Nph_Most_Access (At_Byte, Count : Unsigned_32) return Unsigned_64
   with Import, Convention => C, External_Name => "nph_sliced_most_access";

   function Nph_Most_Has_Room return Unsigned_64
   with Import, Convention => C, External_Name => "nph_sliced_most_has_room";

   function Nph_Most_Length return Unsigned_64
   with Import, Convention => C, External_Name => "nph_sliced_most_length";

   --  The address of the bytes of an object, while the heap is lent. That of
   --  the package Norphuen may be for another library.
   function Nph_Bytes
     (Words : System.Address; Place : Unsigned_32) return System.Address
   is (Words + 8 * (Storage_Offset (Place) + 1));

end Norphuen.Sliced;

--  Norphuen for Ada: the calls of include/norphuen.h, whose comments hold here too, under the short names. The folder
--  moving, nonmoving, tlsf or half chooses the library; the packages Norphuen.Sliced, Norphuen.Tasks, Norphuen.Images and
--  Norphuen.Large, in folders of these names, have the calls of those four. The program links the libraries that it uses,
--  and defines the three allocator functions that the header describes. Here Freed and Resized are always given. An
--  object's bytes are reached in place by a variable at its address: X : T with Import, Address => Nph_Bytes (Words, Place).

with Interfaces; use Interfaces;
with Interfaces.C; use Interfaces.C;
with System; use System;
with System.Storage_Elements; use System.Storage_Elements;
with Norphuen_Library; use Norphuen_Library;

package Norphuen is

   --  A heap: closed, open or lent. Its fields are the library's own. A limited record is never copied.
   type Heap is limited record
      At_Address : System.Address := System.Null_Address;
      Last       : Unsigned_32    := 0;
      Is_Open    : Unsigned_8     := 0;
      Is_Lent    : Unsigned_8     := 0;
   end record
   with Convention => C;

   --  What a call returns: Ok, or why it fails.
   subtype Code is Integer_32;

   Ok         : constant Code := 0;
   Size       : constant Code := 1;
   Proxy      : constant Code := 2;
   Space      : constant Code := 3;
   Unknown    : constant Code := 4;
   Bad_Range  : constant Code := 5;
   Kind       : constant Code := 6;
   Closed     : constant Code := 7;
   Is_Open    : constant Code := 8;
   Lent       : constant Code := 9;
   Memory     : constant Code := 10;
   Pages      : constant Code := 11;
   Page_Bytes : constant Code := 12;
   Bound      : constant Code := 13;
   Proxies    : constant Code := 14;
   Region     : constant Code := 15;
   Not_Lent   : constant Code := 16;
   Entries    : constant Code := 17;
   Busy       : constant Code := 18;
   Quantum    : constant Code := 19;
   Live       : constant Code := 20;
   Image      : constant Code := 21;

   --  No handle. In Freed and Resized: no object moved. Nph_Next takes it at
   --  the start of a walk, and writes it at the end.
   None : constant Unsigned_32 := Unsigned_32'Last;

   --  The memory that Nph_Open asks for: the bytes of all blocks, those of
   --  the largest block, and how many blocks.
   type Needed is record
      Total   : Unsigned_64 := 0;
      Largest : Unsigned_64 := 0;
      Blocks  : Unsigned_32 := 0;
   end record
   with Convention => C;

   --  What a program has live at one time: at most Count objects of Bytes
   --  bytes.
   type Need is record
      Bytes : Unsigned_32 := 0;
      Count : Unsigned_32 := 0;
   end record
   with Convention => C;
   type Needs is array (size_t range <>) of aliased Need
   with Convention => C;

   --  The words of the freed slot or block, and the object that moved to its
   --  address.
   type Freed is record
      Slot_Words : Unsigned_32 := 0;
      Moved      : Unsigned_32 := None;
   end record
   with Convention => C;

   --  The words of the slot before and after, and the other object that moved
   --  to the old address.
   type Resized is record
      Old_Slot_Words : Unsigned_32 := 0;
      Slot_Words     : Unsigned_32 := 0;
      Moved          : Unsigned_32 := None;
   end record
   with Convention => C;

   --  The figures of a size class.
   type Class is record
      Slot_Words : Unsigned_32 := 0;
      Slots      : Unsigned_32 := 0;
      Live       : Unsigned_32 := 0;
      Pages      : Unsigned_32 := 0;
      Not_Full   : Unsigned_32 := 0;
   end record
   with Convention => C;

   --  The figures of the whole heap.
   type Heap_Totals is record
      Asked   : Unsigned_64 := 0;
      Taken   : Unsigned_64 := 0;
      Held    : Unsigned_64 := 0;
      Live    : Unsigned_32 := 0;
      Used    : Unsigned_32 := 0;
      Free    : Unsigned_32 := 0;
      Largest : Unsigned_32 := 0;
   end record
   with Convention => C;

   --  What a heap counted since it was opened.
   type Counted is record
      Most_Asked : Unsigned_64 := 0;
      Least_Free : Unsigned_64 := 0;
      Moves      : Unsigned_64 := 0;
      Unknown    : Unsigned_64 := 0;
      Size       : Unsigned_64 := 0;
      Proxy      : Unsigned_64 := 0;
      Space      : Unsigned_64 := 0;
   end record
   with Convention => C;

   --  A buffer for the bytes that a call writes or reads.
   type Bytes is array (size_t range <>) of aliased Unsigned_8
   with Convention => C;

   function Nph_Open
     (H : in out Heap; Pages, Page_Bytes, K, Proxies : Unsigned_32)
      return Code
   with Import, Convention => C, External_Name => Prefix & "open";

   function Nph_Bytes_Needed
     (Pages, Page_Bytes, K, Proxies : Unsigned_32; Result : in out Needed)
      return Code
   with Import, Convention => C, External_Name => Prefix & "bytes_needed";

   --  The libraries of TLSF and Half-Fit lack this call.
   function Nph_Pages_Needed
     (Page_Bytes, K : Unsigned_32; List : Needs; Count : size_t;
      Pages         : in out Unsigned_32)
      return Code
   with Import, Convention => C, External_Name => Prefix & "pages_needed";

   procedure Nph_Close (H : in out Heap)
   with Import, Convention => C, External_Name => Prefix & "close";

   function Nph_Malloc
     (H : in out Heap; Bytes : Unsigned_32; Handle : in out Unsigned_32)
      return Code
   with Import, Convention => C, External_Name => Prefix & "malloc";

   function Nph_Free
     (H : in out Heap; Handle : Unsigned_32; Result : in out Freed)
      return Code
   with Import, Convention => C, External_Name => Prefix & "free";

   function Nph_Resize
     (H      : in out Heap; Handle : Unsigned_32; Bytes : Unsigned_32;
      Result : in out Resized)
      return Code
   with Import, Convention => C, External_Name => Prefix & "resize";

   function Nph_Write
     (H     : in out Heap; Handle : Unsigned_32; At_Byte : Unsigned_32;
      Data  : Bytes; Count : size_t)
      return Code
   with Import, Convention => C, External_Name => Prefix & "write";

   function Nph_Read
     (H     : in out Heap; Handle : Unsigned_32; At_Byte : Unsigned_32;
      Data  : in out Bytes; Count : size_t)
      return Code
   with Import, Convention => C, External_Name => Prefix & "read";

   function Nph_Length
     (H : in out Heap; Handle : Unsigned_32; Length : in out Unsigned_32)
      return Code
   with Import, Convention => C, External_Name => Prefix & "length";

   function Nph_Has_Room (H : in out Heap; Bytes : Unsigned_32) return Code
   with Import, Convention => C, External_Name => Prefix & "has_room";

   function Nph_Slot_Words
     (H : in out Heap; Handle : Unsigned_32; Words : in out Unsigned_32)
      return Code
   with Import, Convention => C, External_Name => Prefix & "slot_words";

   --  The libraries of TLSF and Half-Fit lack this call.
   function Nph_Class_Of
     (H          : in out Heap; Bytes : Unsigned_32;
      Size_Class : in out Unsigned_32)
      return Code
   with Import, Convention => C, External_Name => Prefix & "class_of";

   function Nph_Figures
     (H : in out Heap; Size_Class : Unsigned_32; Result : in out Class)
      return Code
   with Import, Convention => C, External_Name => Prefix & "figures";

   function Nph_Totals
     (H : in out Heap; Result : in out Heap_Totals) return Code
   with Import, Convention => C, External_Name => Prefix & "totals";

   function Nph_Next
     (H : in out Heap; Handle : Unsigned_32; Next : in out Unsigned_32)
      return Code
   with Import, Convention => C, External_Name => Prefix & "next";

   function Nph_Counts (H : in out Heap; Result : in out Counted) return Code
   with Import, Convention => C, External_Name => Prefix & "counts";

   --  The libraries of TLSF and Half-Fit lack this call.
   function Nph_Set_Bound
     (H : in out Heap; Slot_Words, K : Unsigned_32) return Code
   with Import, Convention => C, External_Name => Prefix & "set_bound";

   function Nph_Last_Steps
     (H : in out Heap; Steps : in out Unsigned_64) return Code
   with Import, Convention => C, External_Name => Prefix & "last_steps";

   function Nph_Place
     (H : in out Heap; Handle : Unsigned_32; Place : in out Unsigned_32)
      return Code
   with Import, Convention => C, External_Name => Prefix & "place";

   function Nph_Lend
     (H : in out Heap; Words : in out System.Address) return Code
   with Import, Convention => C, External_Name => Prefix & "lend";

   function Nph_Return (H : in out Heap) return Code
   with Import, Convention => C, External_Name => Prefix & "return";

   --  10,000 times the major number, 100 times the minor one, and the patch.
   function Nph_Version return Unsigned_32
   with Import, Convention => C, External_Name => Prefix & "version";

   --  Moving, nonmoving, TLSF or Half-Fit: 0, 1, 2 or 3.
   function Nph_Kind return Unsigned_32
   with Import, Convention => C, External_Name => Prefix & "kind";

   --  The most steps of a call, before it is made.
   function Nph_Most_Malloc return Unsigned_64
   with Import, Convention => C, External_Name => Prefix & "most_malloc";

   function Nph_Most_Free (Slot_Words : Unsigned_32) return Unsigned_64
   with Import, Convention => C, External_Name => Prefix & "most_free";

   function Nph_Most_Resize
     (Bytes, Old_Slot_Words, Slot_Words : Unsigned_32) return Unsigned_64
   with Import, Convention => C, External_Name => Prefix & "most_resize";

   function Nph_Most_Access (At_Byte, Count : Unsigned_32) return Unsigned_64
   with Import, Convention => C, External_Name => Prefix & "most_access";

   function Nph_Most_Has_Room return Unsigned_64
   with Import, Convention => C, External_Name => Prefix & "most_has_room";

   function Nph_Most_Totals (Free_Count : Unsigned_32) return Unsigned_64
   with Import, Convention => C, External_Name => Prefix & "most_totals";

   function Nph_Most_Length return Unsigned_64
   with Import, Convention => C, External_Name => Prefix & "most_length";

   --  The address of the bytes of an object, while the heap is lent.
   function Nph_Bytes
     (Words : System.Address; Place : Unsigned_32) return System.Address
   is (Words + 8 * (Storage_Offset (Place) + Headers));

end Norphuen;

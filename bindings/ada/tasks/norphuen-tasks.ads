--  Heaps of tasks: the calls of the library norphuen_tasks. The comments of
--  include/norphuen.h hold here too. A task's number has a type of its own,
--  so no handle takes its place.
package Norphuen.Tasks is

   --  A heap: closed or open. Its fields are the library's own.
   type Heap is limited record
      At_Address : System.Address := System.Null_Address;
      Last       : Unsigned_32    := 0;
      Is_Open    : Unsigned_8     := 0;
   end record
   with Convention => C;

   --  The number of a task: 0 to 15, else a call on an open heap returns
   --  Unknown.
   type Task_Number is new Unsigned_32;

   --  A task: its quota, the pages that have its objects, and its live
   --  objects.
   type Task_Figures is record
      Quota : Unsigned_32 := 0;
      Pages : Unsigned_32 := 0;
      Live  : Unsigned_32 := 0;
   end record
   with Convention => C;

   function Nph_Open
     (H : in out Heap; Pages, Page_Bytes, Proxies : Unsigned_32) return Code
   with Import, Convention => C, External_Name => "nph_tasks_open";

   function Nph_Bytes_Needed
     (Pages, Page_Bytes, Proxies : Unsigned_32; Result : in out Needed)
      return Code
   with Import, Convention => C, External_Name => "nph_tasks_bytes_needed";

   procedure Nph_Close (H : in out Heap)
   with Import, Convention => C, External_Name => "nph_tasks_close";

   function Nph_Set_Quota
     (H : in out Heap; T : Task_Number; Pages : Unsigned_32) return Code
   with Import, Convention => C, External_Name => "nph_tasks_set_quota";

   function Nph_Malloc
     (H      : in out Heap; T : Task_Number; Bytes : Unsigned_32;
      Handle : in out Unsigned_32)
      return Code
   with Import, Convention => C, External_Name => "nph_tasks_malloc";

   function Nph_Free
     (H      : in out Heap; T : Task_Number; Handle : Unsigned_32;
      Result : in out Freed)
      return Code
   with Import, Convention => C, External_Name => "nph_tasks_free";

   function Nph_Write
     (H       : in out Heap; T : Task_Number; Handle : Unsigned_32;
      At_Byte : Unsigned_32; Data : Bytes; Count : size_t)
      return Code
   with Import, Convention => C, External_Name => "nph_tasks_write";

   function Nph_Read
     (H       : in out Heap; T : Task_Number; Handle : Unsigned_32;
      At_Byte : Unsigned_32; Data : in out Bytes; Count : size_t)
      return Code
   with Import, Convention => C, External_Name => "nph_tasks_read";

   function Nph_Length
     (H      : in out Heap; T : Task_Number; Handle : Unsigned_32;
      Length : in out Unsigned_32)
      return Code
   with Import, Convention => C, External_Name => "nph_tasks_length";

   function Nph_Task
     (H : in out Heap; T : Task_Number; Result : in out Task_Figures)
      return Code
   with Import, Convention => C, External_Name => "nph_tasks_task";

   function Nph_Figures
     (H      : in out Heap; T : Task_Number; Size_Class : Unsigned_32;
      Result : in out Class)
      return Code
   with Import, Convention => C, External_Name => "nph_tasks_figures";

   --  How many pages are in no quota.
   function Nph_Unassigned
     (H : in out Heap; Pages : in out Unsigned_32) return Code
   with Import, Convention => C, External_Name => "nph_tasks_unassigned";

   function Nph_Admit
     (H : in out Heap; T : Task_Number; List : Needs; Count : size_t)
      return Code
   with Import, Convention => C, External_Name => "nph_tasks_admit";

   function Nph_Least_Quota
     (H     : in out Heap; List : Needs; Count : size_t;
      Pages : in out Unsigned_32)
      return Code
   with Import, Convention => C, External_Name => "nph_tasks_least_quota";

   function Nph_Last_Steps
     (H : in out Heap; Steps : in out Unsigned_64) return Code
   with Import, Convention => C, External_Name => "nph_tasks_last_steps";

   function Nph_Version return Unsigned_32
   with Import, Convention => C, External_Name => "nph_tasks_version";

end Norphuen.Tasks;

--  Two tasks in one heap, each with the least quota for its needs.
with Ada.Text_IO;    use Ada.Text_IO;
with Interfaces;     use Interfaces;
with Norphuen;       use Norphuen;
with Norphuen.Tasks; use Norphuen.Tasks;

procedure Tasks is
   Logger  : constant Task_Number := 0;
   Planner : constant Task_Number := 1;

   H       : Norphuen.Tasks.Heap;
   Handles : array (1 .. 4) of Unsigned_32 := (others => None);
   Page    : Unsigned_32 := None;
   Other   : Unsigned_32 := None;
   Put_In  : constant Bytes (0 .. 1) := (16#CA#, 16#FE#);
   Got     : Bytes (0 .. 1) := (0, 0);
   F       : Freed;

   procedure Show (What : String; Result : Code) is
   begin
      Put_Line (What & ":" & Result'Image);
   end Show;

   --  Gives a task the least quota for Count objects of Size bytes, if so
   --  many pages are left, and prints what becomes of it.
   procedure Start (T : Task_Number; Size, Count : Unsigned_32) is
      Demand : constant Needs (0 .. 0) := (0 => (Size, Count));
      Quota  : Unsigned_32 := 0;
      Left   : Unsigned_32 := 0;
   begin
      Show ("task" & T'Image, Nph_Least_Quota (H, Demand, 1, Quota));
      Show (Quota'Image & " pages", Nph_Set_Quota (H, T, Quota));
      Show (" admitted", Nph_Admit (H, T, Demand, 1));
      Show (" unassigned", Nph_Unassigned (H, Left));
      Put_Line (Left'Image & " pages left");
   end Start;

   procedure Show_Task (T : Task_Number) is
      Figures : Task_Figures;
   begin
      Show ("task" & T'Image, Nph_Task (H, T, Figures));
      Put_Line
        (" quota" & Figures.Quota'Image & ", pages" & Figures.Pages'Image
         & ", live" & Figures.Live'Image);
   end Show_Task;

begin
   Show ("malloc", Nph_Malloc (H, Logger, 176, Other));
   Show ("open", Nph_Open (H, 3, 512, 8));
   Start (Logger, 176, 4);
   Start (Planner, 504, 1);
   Start (2, 8, 1);
   for Handle of Handles loop
      Show ("malloc", Nph_Malloc (H, Logger, 176, Handle));
   end loop;
   Show ("a fifth of the logger", Nph_Malloc (H, Logger, 176, Other));
   Show ("a page of the planner", Nph_Malloc (H, Planner, 504, Page));
   Show ("a second", Nph_Malloc (H, Planner, 504, Other));
   Show ("write", Nph_Write (H, Logger, Handles (2), 0, Put_In, 2));
   Show ("free a", Nph_Free (H, Logger, Handles (1), F));
   Show ("free c", Nph_Free (H, Logger, Handles (3), F));
   Put_Line
     ("words" & F.Slot_Words'Image & ", b moved: "
      & Boolean'Image (F.Moved = Handles (2)));
   Show ("read", Nph_Read (H, Logger, Handles (2), 0, Got, 2));
   Put_Line (Got (0)'Image & Got (1)'Image);
   Show_Task (Logger);
   Show_Task (Planner);
   Show ("less than the planner uses", Nph_Set_Quota (H, Planner, 0));
   Show ("task 16", Nph_Set_Quota (H, 16, 0));
   Nph_Close (H);
end Tasks;

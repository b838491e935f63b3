--  A free in slices: examples/slice.cf in Ada. An object is read and written
--  while a job moves it, and in place afterwards.
with Ada.Text_IO;     use Ada.Text_IO;
with Interfaces;      use Interfaces;
with Norphuen;        use Norphuen;
with Norphuen.Sliced; use Norphuen.Sliced;
with System;

procedure Slices is
   Quantum : constant := 8;

   H       : Norphuen.Sliced.Heap;
   Handles : array (1 .. 4) of Unsigned_32 := (others => None);
   First   : constant Bytes (0 .. 0) := (0 => 16#CA#);
   Last    : constant Bytes (0 .. 0) := (0 => 16#FE#);
   Got     : Bytes (0 .. 175) := (others => 0);
   Page    : Unsigned_32 := None;
   Moving  : Unsigned_32 := None;
   Place   : Unsigned_32 := 0;
   Words   : System.Address := System.Null_Address;
   T       : Heap_Totals;

   function Left return Unsigned_32 is
      Words : Unsigned_32 := 0;
   begin
      return (if Nph_Left (H, Words) = Ok then Words else None);
   end Left;

   procedure Show (What : String; Result : Code) is
   begin
      Put_Line (What & ":" & Result'Image & "," & Left'Image & " words left");
   end Show;

   --  Does the rest of the pending job, and prints how many slices that
   --  takes.
   procedure Finish is
      Slices : Natural := 0;
      Steps  : Unsigned_64 := 0;
   begin
      while Left > 0 loop
         if Nph_Step (H) /= Ok or else Nph_Last_Steps (H, Steps) /= Ok
           or else Steps > Nph_Most_Step (Quantum)
         then
            raise Program_Error;
         end if;
         Slices := Slices + 1;
      end loop;
      Put_Line ("slices:" & Slices'Image);
   end Finish;

begin
   Put_Line ("malloc:" & Code'Image (Nph_Malloc (H, 8, Page)));
   Put_Line ("quantum 0:" & Code'Image (Nph_Open (H, 2, 512, 8, 0)));
   Show ("open", Nph_Open (H, 2, 512, 8, Quantum));
   for Handle of Handles loop
      Show ("malloc", Nph_Malloc (H, 176, Handle));
   end loop;
   Show ("write", Nph_Write (H, Handles (2), 0, First, 1));
   Show ("free", Nph_Free (H, Handles (1)));
   Show ("free", Nph_Free (H, Handles (3)));
   Finish;
   Show ("free", Nph_Free (H, Handles (3)));
   Show ("moving", Nph_Moving (H, Moving));
   Put_Line ("b moves: " & Boolean'Image (Moving = Handles (2)));
   Show ("lend", Nph_Lend (H, Words));
   Show ("totals", Nph_Totals (H, T));
   Put_Line (T.Asked'Image & T.Taken'Image & T.Live'Image & T.Used'Image);
   Show ("write", Nph_Write (H, Handles (2), 175, Last, 1));
   Show ("a page", Nph_Malloc (H, 504, Page));
   Finish;
   Show ("read", Nph_Read (H, Handles (2), 0, Got, 176));
   Put_Line ("b:" & Got (0)'Image & Got (175)'Image);
   Show ("place", Nph_Place (H, Handles (2), Place));
   Put_Line ("lend:" & Code'Image (Nph_Lend (H, Words)));
   declare
      X : Bytes (0 .. 175)
      with Import, Address => Norphuen.Sliced.Nph_Bytes (Words, Place);
   begin
      Put_Line ("in place:" & X (0)'Image & X (175)'Image);
   end;
   Put_Line ("step:" & Code'Image (Nph_Step (H)));
   Show ("return", Nph_Return (H));
   Show ("a page", Nph_Malloc (H, 504, Page));
   Show ("free", Nph_Free (H, Handles (1)));
   Nph_Close (H);
   Put_Line ("step:" & Code'Image (Nph_Step (H)));
end Slices;

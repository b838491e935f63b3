--  A log of records in one long object, which is cut into parts in pages of
--  their own. Each call is budgeted before it is made.
with Ada.Text_IO;    use Ada.Text_IO;
with Interfaces;     use Interfaces;
with Norphuen;       use Norphuen;
with Norphuen.Large; use Norphuen.Large;

procedure Large is
   Page   : constant := 512;
   Length : constant := 20_000;

   --  A record that passes the end of a part, whose bytes are 504.
   Text  : constant String := "record 12";
   Start : constant Unsigned_32 := 500;

   H      : Norphuen.Large.Heap;
   N      : Needed;
   T      : Heap_Totals;
   Log    : Unsigned_32 := None;
   Other  : Unsigned_32 := None;
   Number : Unsigned_32 := 0;
   Got    : String (Text'Range);
   To     : Bytes (1 .. Text'Length)
   with Import, Address => Text'Address;
   From   : Bytes (1 .. Text'Length)
   with Import, Address => Got'Address;

   procedure Show (What : String; Result : Code) is
   begin
      Put_Line (What & ":" & Result'Image);
   end Show;

   --  Prints also the steps of the call, and the most that it may take.
   procedure Show (What : String; Result : Code; Most : Unsigned_64) is
      Steps : Unsigned_64 := 0;
   begin
      Show (What, Result);
      Show (" steps", Nph_Last_Steps (H, Steps));
      Put_Line (Steps'Image & " of" & Most'Image);
   end Show;

begin
   Show ("malloc", Nph_Malloc (H, Length, Log));
   Show ("needed", Nph_Bytes_Needed (48, Page, 100, N));
   Put_Line (N.Total'Image & " in" & N.Blocks'Image);
   Show ("open", Nph_Open (H, 48, Page, 100));
   Show ("malloc", Nph_Malloc (H, Length, Log), Nph_Most_Malloc (Page, Length));
   Show ("a second log", Nph_Malloc (H, Length, Other));
   Show ("100000 bytes", Nph_Malloc (H, 100_000, Other));
   Show ("write", Nph_Write (H, Log, Start, To, To'Length),
         Nph_Most_Access (Page, Start, To'Length));
   Show ("read", Nph_Read (H, Log, Start, From, From'Length),
         Nph_Most_Access (Page, Start, From'Length));
   Put_Line (Got);
   Show ("past the end", Nph_Read (H, Log, Length - 1, From, 2));
   Show ("length", Nph_Length (H, Log, Number));
   Put_Line (Number'Image);
   Show ("totals", Nph_Totals (H, T));
   Put_Line (T.Live'Image & " parts and spine," & T.Used'Image & " pages");
   Show ("free", Nph_Free (H, Log), Nph_Most_Free (Page, Length));
   Show ("free again", Nph_Free (H, Log));
   Nph_Close (H);
end Large;

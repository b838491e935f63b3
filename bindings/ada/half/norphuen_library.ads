--  The Half-Fit library.
package Norphuen_Library is

   --  The names of its calls begin with this.
   Prefix : constant String := "nph_half_";

   --  The words of an object in front of its bytes.
   Headers : constant := 2;

end Norphuen_Library;
